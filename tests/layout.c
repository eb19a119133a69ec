/* Whether C and the library lay out every struct alike, and whether the library keeps to what it was lent.
 *
 * C fills each field with values that can be told apart, and the library's answers must be those of the values C put there;
 * then C reads each field of what the library hands back. Guard bytes lie around all that is lent. What a call should do is
 * said here anew from the rules, as far as an answer is needed to see a field.
 *
 * Its last line is 'N passed, M failed'. */
#include <stdio.h>
#include <string.h>

#include "dirgewater.h"

/* ---- Sizes: what each struct takes, said anew from the most of each thing, so that a gap is seen. One may lie after the
 * last field alone, where the struct's alignment asks for it. */

#define NUMBERS(count) ((count) * sizeof(uint32_t))
#define ALIGNED(type, bytes) (((bytes) + _Alignof(type) - 1) / _Alignof(type) * _Alignof(type))

enum {
    COUNTS = 4, /* of desks, classes, processes, files */
    SETUP_BYTES = ALIGNED(uint32_t, NUMBERS(COUNTS) + DW_DESKS * DW_CLASSES + DW_PROCESSES + DW_FILES),
    CELL_WIDTH = 2, /* a figure, and its written mark */
    CELL_BYTES = NUMBERS(CELL_WIDTH),
    CELLS_AT = NUMBERS(DW_FILES), /* past the holders */
    STORE_BYTES = ALIGNED(uint32_t, CELLS_AT + DW_FILES * CELL_BYTES + DW_FILES * DW_PROCESSES),
    ANSWER_BYTES = NUMBERS(DW_ANSWER_WIDTH),
    TEXT_BYTES = ALIGNED(size_t, ANSWER_BYTES + sizeof(size_t) + SETUP_BYTES)
};

_Static_assert(sizeof(dw_setup) == SETUP_BYTES, "the counts, and a byte for each right, process and file");
_Static_assert(sizeof(dw_cell) == CELL_BYTES, "a figure and its written mark");
_Static_assert(sizeof(dw_store) == STORE_BYTES, "a holder and a cell for each file, and the open marks");
_Static_assert(sizeof(dw_given_setup) == NUMBERS(1) + SETUP_BYTES, "a number, and the setup that is given");
_Static_assert(sizeof(dw_given_store) == NUMBERS(1) + STORE_BYTES, "a number, and the store that is given");
_Static_assert(sizeof(dw_answer) == ANSWER_BYTES, "a kind and a value");
_Static_assert(sizeof(dw_called) == ANSWER_BYTES + STORE_BYTES, "an answer, and a store");
_Static_assert(sizeof(dw_listed) == ANSWER_BYTES + STORE_BYTES, "an answer, and a store");
_Static_assert(sizeof(dw_text) == TEXT_BYTES, "an answer, an offset, and a setup");

/* ---- Counting. One group of checks passes or fails as a whole; its first failures are printed. */

static int faults;

#define CHECK(fact)                                                          \
    do {                                                                     \
        if (!(fact) && faults++ < 3)                                         \
            printf("layout: line %d does not hold: %s\n", __LINE__, #fact);  \
    } while (0)

/* ---- Values. */

#define LEN(entries) (sizeof(entries) / sizeof(entries)[0])

static uint32_t state = 1;

/* Numbers below a bound in no order, the same in each run. */
static uint32_t below(uint32_t bound)
{
    state ^= state << 13;
    state ^= state >> 17;
    state ^= state << 5;
    return (state >> 8) % bound;
}

/* Counts that differ from each other and from the most. */
enum { D = DW_DESKS - 3, T = DW_CLASSES - 5, P = DW_PROCESSES - 3, F = DW_FILES - 3 };

/* The part setup steps through the desks by five and through the classes by three. */
_Static_assert(D % 5 != 0 && P >= D && T % 3 != 0 && F >= T, "each desk has a process, and each class a file");
_Static_assert(DW_PROCESSES <= DW_RIGHTS && DW_FILES <= DW_RIGHTS, "room for the rights is room for each run of a setup");

/* No two desks have the same rights, and no two classes give the same. */
static uint8_t right_at(uint32_t d, uint32_t t)
{
    return (uint8_t)((d + 3 * t + 3 * d * t) / 4 % 4);
}

static dw_setup part_setup(void)
{
    dw_setup s;

    memset(&s, 0, sizeof s);
    s.desks = D;
    s.classes = T;
    s.processes = P;
    s.files = F;
    for (uint32_t d = 0; d < D; d++)
        for (uint32_t t = 0; t < T; t++)
            s.rights[d * DW_CLASSES + t] = right_at(d, t);
    for (uint32_t p = 0; p < P; p++)
        s.desk_of[p] = (uint8_t)((p * 5 + p / D) % D);
    for (uint32_t f = 0; f < F; f++)
        s.class_of[f] = (uint8_t)((f * 3 + f / T) % T);
    return s;
}

/* As many of each as can be, and every right given. */
static dw_setup whole_setup(void)
{
    dw_setup s;

    memset(&s, 0, sizeof s);
    s.desks = DW_DESKS;
    s.classes = DW_CLASSES;
    s.processes = DW_PROCESSES;
    s.files = DW_FILES;
    memset(s.rights, DW_RW, sizeof s.rights);
    return s;
}

static const dw_cell unwritten_cell;

static dw_cell written_cell(uint32_t figure)
{
    dw_cell c;

    c.figure = figure;
    c.written = 1;
    return c;
}

/* Each figure another; but of so many files one is unwritten and one holds a written 0, so that written mark and figure
 * are told apart. */
enum { CELLS_APART = 5 };

static dw_cell cell_at(uint32_t f)
{
    switch (f % CELLS_APART) {
    case 0:
        return unwritten_cell;
    case 2:
        return written_cell(0);
    default:
        return written_cell(0x01020304u * (f + 1) + 0x80u);
    }
}

static dw_store blank_store(void)
{
    dw_store m;

    memset(&m, 0, sizeof m);
    return m;
}

/* Open marks in no order come again after so many: a processor learns these by heart and guesses right, while with more of
 * them each mark would take longer. It is a prime, so that no two files have the same. */
enum { MARKS_APART = 251 };

/* Each cell another than its neighbours, and open marks in no order. */
static dw_store opened_store(void)
{
    dw_store m = blank_store();

    for (uint32_t f = 0; f < DW_FILES; f++)
        m.cells[f] = cell_at(f);
    for (uint32_t i = 0; i < DW_MARKS; i++)
        m.marks[i] = i < MARKS_APART ? (uint8_t)below(2) : m.marks[i - MARKS_APART];
    return m;
}

/* The same, and each file locked by another process, which has it open. */
static dw_store locked_store(void)
{
    dw_store m = opened_store();

    for (uint32_t f = 0; f < DW_FILES; f++) {
        uint32_t p = (f * 37 + 11) % DW_PROCESSES;

        m.holders[f] = p + 1;
        m.marks[DW_MARK(f, p)] = 1;
    }
    return m;
}

static uint8_t right_of(const dw_setup *s, uint32_t p, uint32_t f)
{
    return s->rights[s->desk_of[p] * DW_CLASSES + s->class_of[f]];
}

static int is_answer(dw_answer a, uint32_t kind, uint32_t value)
{
    return a.kind == kind && a.value == value;
}

/* What a READ that goes through answers: the figure, 0 too, but nothing where none was written. */
static dw_answer reading_of(dw_cell c)
{
    dw_answer a;

    a.kind = c.written ? DW_FIGURE : DW_NOTHING;
    a.value = c.written ? c.figure : 0;
    return a;
}

static int same_store(const dw_store *one, const dw_store *other)
{
    return memcmp(one, other, sizeof *one) == 0;
}

/* ---- The places that are tried. A judging or a call looks at the whole store, so one for each mark, or for each file,
 * would take a time that grows faster than the marks do. A sample is tried instead, of the same number whatever the sizes
 * are: the edges, before and past the counts of the part setup, each with each, and then places in no order. */

enum { EDGES = 4, CORNERS = EDGES * EDGES, PLACES = 256, FILES_TRIED = 16 };

struct place {
    uint32_t f, p;
};

static uint32_t file_tried(uint32_t i)
{
    static const uint32_t edges[EDGES] = {0, F - 1, F, DW_FILES - 1};

    return i < EDGES ? edges[i] : below(DW_FILES);
}

static uint32_t process_tried(uint32_t i)
{
    static const uint32_t edges[EDGES] = {0, P - 1, P, DW_PROCESSES - 1};

    return i < EDGES ? edges[i] : below(DW_PROCESSES);
}

static struct place place_tried(uint32_t i)
{
    struct place at;

    at.f = file_tried(i < CORNERS ? i / EDGES : EDGES);
    at.p = process_tried(i < CORNERS ? i % EDGES : EDGES);
    return at;
}

/* ---- Guards: bytes around a lent place, which must be there afterwards as before. */

enum { GUARD = 64 };

static void set_guard(uint8_t *guard)
{
    for (int i = 0; i < GUARD; i++)
        guard[i] = (uint8_t)(0xA5 ^ i);
}

static int has_guard(const uint8_t *guard)
{
    for (int i = 0; i < GUARD; i++)
        if (guard[i] != (uint8_t)(0xA5 ^ i))
            return 0;
    return 1;
}

struct guarded_store {
    uint8_t before[GUARD];
    dw_store store;
    uint8_t after[GUARD];
};

/* A run of bytes of any length: the second guard follows its last byte. */
struct guarded_bytes {
    uint8_t before[GUARD];
    uint8_t bytes[DW_RIGHTS + GUARD];
};

/* Numbers lent for a list. The guards lie at their ends too. */
struct guarded_numbers {
    uint8_t before[GUARD];
    uint32_t numbers[(DW_CALLS + 1) * DW_CALL_WIDTH];
    uint8_t after[GUARD];
};

/* ---- What the library reads of a setup. */

static uint32_t fresh_refusal(const dw_setup *s)
{
    return dw_fresh(*s).refusal;
}

/* A count just outside its sizes is refused. */
static void count_is_read(dw_setup *s, uint32_t *count, uint32_t most)
{
    uint32_t was = *count;

    *count = 0;
    CHECK(fresh_refusal(s) == DW_REFUSAL_SETUP);
    *count = most + 1;
    CHECK(fresh_refusal(s) == DW_REFUSAL_SETUP);
    *count = was;
    CHECK(fresh_refusal(s) == 0);
}

static void reads_counts(void)
{
    dw_setup s = part_setup();

    count_is_read(&s, &s.desks, DW_DESKS);
    count_is_read(&s, &s.classes, DW_CLASSES);
    count_is_read(&s, &s.processes, DW_PROCESSES);
    count_is_read(&s, &s.files, DW_FILES);
}

/* A route from a desk to itself is refused with 13, unless the setup is with 15. It makes no store, so there is time to ask
 * it of every entry. */
static uint32_t own_route_refusal(const dw_setup *s)
{
    static uint32_t none[1];

    return dw_route(*s, 0, 0, none, 0).value;
}

/* An entry takes its greatest value, and no greater one. */
static void entry_is_read(dw_setup *s, uint8_t *entry, uint32_t most)
{
    uint8_t was = *entry;

    *entry = (uint8_t)most;
    CHECK(own_route_refusal(s) == DW_REFUSAL_SAME_DESK);
    *entry = (uint8_t)(most + 1);
    CHECK(own_route_refusal(s) == DW_REFUSAL_SETUP);
    *entry = 255;
    CHECK(own_route_refusal(s) == DW_REFUSAL_SETUP);
    *entry = was;
}

/* The greatest value of an entry is 0 past the counts, so each count is seen to bound its own table. */
static void reads_entries(void)
{
    dw_setup s = part_setup();

    for (uint32_t d = 0; d < DW_DESKS; d++)
        for (uint32_t t = 0; t < DW_CLASSES; t++)
            entry_is_read(&s, &s.rights[d * DW_CLASSES + t], d < D && t < T ? DW_RW : 0);
    for (uint32_t p = 0; p < DW_PROCESSES; p++)
        entry_is_read(&s, &s.desk_of[p], p < P ? D - 1 : 0);
    for (uint32_t f = 0; f < DW_FILES; f++)
        entry_is_read(&s, &s.class_of[f], f < F ? T - 1 : 0);
}

/* OPEN shows R and LOCK shows W. */
static void right_is_read(const dw_setup *s, uint32_t p, uint32_t f)
{
    uint8_t right = right_of(s, p, f);
    dw_called opened = dw_call(*s, blank_store(), DW_OPEN, p, f, 0);
    dw_called locked = dw_call(*s, blank_store(), DW_LOCK, p, f, 0);

    CHECK(opened.store.marks[DW_MARK(f, p)] == (right & DW_R ? 1 : 0));
    CHECK(locked.store.holders[f] == (right & DW_W ? p + 1 : 0));
}

/* Some entry, from anywhere on, that has this value. */
static uint32_t one_with(const uint8_t *entries, uint32_t count, uint32_t value)
{
    uint32_t at = below(count);

    while (entries[at] != value)
        at = (at + 1) % count;
    return at;
}

/* Each right of each desk on each class, by some process of the one and some file of the other; then the corners. */
static void reads_rights(void)
{
    dw_setup s = part_setup();

    for (uint32_t d = 0; d < D; d++)
        for (uint32_t t = 0; t < T; t++) {
            uint32_t p = one_with(s.desk_of, P, d), f = one_with(s.class_of, F, t);

            right_is_read(&s, p, f);
        }
    for (uint32_t i = 0; i < CORNERS; i++) {
        struct place at = place_tried(i);

        if (at.p < P && at.f < F)
            right_is_read(&s, at.p, at.f);
    }
}

/* ---- What the library reads of a store. */

/* READ tells the file's own cell to each process that has it open, and to no other. */
static void reads_cells_and_marks(void)
{
    dw_setup s = whole_setup();
    dw_store m = opened_store();

    for (uint32_t i = 0; i < PLACES; i++) {
        struct place at = place_tried(i);
        dw_answer due = reading_of(m.marks[DW_MARK(at.f, at.p)] ? m.cells[at.f] : unwritten_cell);

        CHECK(is_answer(dw_call(s, m, DW_READ, at.p, at.f, 0).answer, due.kind, due.value));
    }
}

/* TESTLOCK answers yes to the file's own holder, and to no other. */
static void reads_holders(void)
{
    dw_setup s = whole_setup();
    dw_store m = locked_store();

    for (uint32_t i = 0; i < PLACES; i++) {
        struct place at = place_tried(i);
        uint32_t holder = m.holders[at.f] - 1;

        CHECK(is_answer(dw_call(s, m, DW_TESTLOCK, holder, at.f, 0).answer, DW_YES, 0));
        CHECK(is_answer(dw_call(s, m, DW_TESTLOCK, at.p, at.f, 0).answer, at.p == holder ? DW_YES : DW_NO, 0));
    }
}

/* Whether a store with one holder changed still fits. */
static uint32_t judged_with_holder(const dw_setup *s, dw_store *m, uint32_t f, uint32_t holder)
{
    uint32_t was = m->holders[f], refusal;

    m->holders[f] = holder;
    refusal = dw_judge(*s, *m);
    m->holders[f] = was;
    return refusal;
}

static void judges_holder(const dw_setup *s, dw_store *m, uint32_t f)
{
    uint32_t p = f * 2 % P;

    CHECK(judged_with_holder(s, m, f, P + 1) == DW_REFUSAL_STORE);
    CHECK(judged_with_holder(s, m, f, p + 1) == (f < F && right_of(s, p, f) & DW_W ? 0 : 16));
}

static uint32_t judged_with_cell(const dw_setup *s, dw_store *m, uint32_t f, uint32_t figure, uint32_t written)
{
    dw_cell was = m->cells[f];
    uint32_t refusal;

    m->cells[f].figure = figure;
    m->cells[f].written = written;
    refusal = dw_judge(*s, *m);
    m->cells[f] = was;
    return refusal;
}

/* Any figure may be written, but only before the files' end. A figure that was not written fits nowhere, nor does a written
 * mark above 1. Some have 0 or 1 for their low byte or low half, so that a library that looked there alone would be seen. */
static void judges_cell(const dw_setup *s, dw_store *m, uint32_t f)
{
    static const uint32_t figures[] = {1, 2, 0x100, 0x10000, 0x80000000u, 0xFFFFFFFFu};
    static const uint32_t unfit_marks[] = {2, 3, 0x100, 0x101, 0x10000, 0x10001, 0x80000000u, 0xFFFFFFFFu};
    uint32_t if_written = f < F ? 0 : DW_REFUSAL_STORE;

    CHECK(judged_with_cell(s, m, f, 0, 0) == 0);
    CHECK(judged_with_cell(s, m, f, 0, 1) == if_written);
    for (uint32_t i = 0; i < LEN(figures); i++) {
        CHECK(judged_with_cell(s, m, f, figures[i], 0) == DW_REFUSAL_STORE);
        CHECK(judged_with_cell(s, m, f, figures[i], 1) == if_written);
    }
    for (uint32_t i = 0; i < LEN(unfit_marks); i++) {
        CHECK(judged_with_cell(s, m, f, 0, unfit_marks[i]) == DW_REFUSAL_STORE);
        CHECK(judged_with_cell(s, m, f, 1, unfit_marks[i]) == DW_REFUSAL_STORE);
    }
}

static void judges_mark(const dw_setup *s, dw_store *m, uint32_t f, uint32_t p)
{
    uint8_t *mark = &m->marks[DW_MARK(f, p)];

    *mark = 1;
    CHECK(dw_judge(*s, *m) == (f < F && p < P && right_of(s, p, f) & DW_R ? 0 : 16));
    *mark = 2;
    CHECK(dw_judge(*s, *m) == DW_REFUSAL_STORE);
    *mark = 0;
}

/* Each file was written, is open for all that may read it, and is locked by the last that may write it. */
static dw_store fullest_store(const dw_setup *s)
{
    dw_store m = blank_store();

    for (uint32_t f = 0; f < s->files; f++) {
        m.cells[f] = written_cell(0xFFFFFFFFu);
        for (uint32_t p = 0; p < s->processes; p++) {
            m.holders[f] = right_of(s, p, f) & DW_W ? p + 1 : m.holders[f];
            m.marks[DW_MARK(f, p)] = right_of(s, p, f) & DW_R ? 1 : 0;
        }
    }
    return m;
}

/* All that may be set fits at once; then one holder, cell or mark by itself, before and past the files, fits or does not.
 * A cell is judged among cells that were written too. */
static void judges_every_field(void)
{
    dw_setup s = part_setup();
    dw_store m = blank_store(), fullest = fullest_store(&s);

    CHECK(dw_judge(s, m) == 0);
    CHECK(dw_judge(s, fullest) == 0);
    for (uint32_t i = 0; i < FILES_TRIED; i++) {
        uint32_t f = file_tried(i);

        judges_holder(&s, &m, f);
        judges_cell(&s, &m, f);
        judges_cell(&s, &fullest, f);
    }
    for (uint32_t i = 0; i < PLACES; i++) {
        struct place at = place_tried(i);

        judges_mark(&s, &m, at.f, at.p);
    }
}

/* ---- What the library hands back. */

static dw_given_setup accept_from(const struct guarded_bytes *rights, const struct guarded_bytes *desks,
                                  const struct guarded_bytes *classes)
{
    return dw_accept(D, T, P, F, rights->bytes, D * T, desks->bytes, P, classes->bytes, F);
}

/* Lays a setup's three tables out as they are handed in, each with a guard right past its end. */
static void lay_out(const dw_setup *s, struct guarded_bytes *rights, struct guarded_bytes *desks,
                    struct guarded_bytes *classes)
{
    set_guard(rights->before);
    set_guard(desks->before);
    set_guard(classes->before);
    for (uint32_t d = 0; d < D; d++)
        memcpy(rights->bytes + d * T, s->rights + d * DW_CLASSES, T);
    memcpy(desks->bytes, s->desk_of, P);
    memcpy(classes->bytes, s->class_of, F);
    set_guard(rights->bytes + D * T);
    set_guard(desks->bytes + P);
    set_guard(classes->bytes + F);
}

static void gives_setups(void)
{
    static struct guarded_bytes rights, desks, classes;
    static const dw_setup blank;
    dw_setup s = part_setup();
    dw_given_setup given;

    lay_out(&s, &rights, &desks, &classes);
    given = accept_from(&rights, &desks, &classes);
    CHECK(given.refusal == 0);
    CHECK(given.setup.desks == D && given.setup.classes == T);
    CHECK(given.setup.processes == P && given.setup.files == F);
    CHECK(memcmp(given.setup.rights, s.rights, sizeof s.rights) == 0);
    CHECK(memcmp(given.setup.desk_of, s.desk_of, sizeof s.desk_of) == 0);
    CHECK(memcmp(given.setup.class_of, s.class_of, sizeof s.class_of) == 0);

    rights.bytes[D * T - 1] = 4;
    given = accept_from(&rights, &desks, &classes);
    CHECK(given.refusal == DW_REFUSAL_RIGHT && memcmp(&given.setup, &blank, sizeof blank) == 0);
    rights.bytes[D * T - 1] = 0;
    desks.bytes[P - 1] = D;
    CHECK(accept_from(&rights, &desks, &classes).refusal == DW_REFUSAL_DESK);
    desks.bytes[P - 1] = 0;
    classes.bytes[F - 1] = T;
    CHECK(accept_from(&rights, &desks, &classes).refusal == DW_REFUSAL_CLASS);

    CHECK(has_guard(rights.before) && has_guard(rights.bytes + D * T));
    CHECK(has_guard(desks.before) && has_guard(desks.bytes + P));
    CHECK(has_guard(classes.before) && has_guard(classes.bytes + F));
}

/* Each length one off, alone, is refused: pointer and length of each run stand in their own places. */
static void matches_lengths(void)
{
    static const uint8_t none[DW_RIGHTS];

    CHECK(dw_accept(D, T, P, F, none, D * T, none, P, none, F).refusal == 0);
    CHECK(dw_accept(D, T, P, F, none, D * T + 1, none, P, none, F).refusal == DW_REFUSAL_LENGTH);
    CHECK(dw_accept(D, T, P, F, none, D * T, none, P - 1, none, F).refusal == DW_REFUSAL_LENGTH);
    CHECK(dw_accept(D, T, P, F, none, D * T, none, P, none, F + 1).refusal == DW_REFUSAL_LENGTH);
    CHECK(dw_accept(DW_DESKS + 1, T, P, F, none, D * T, none, P, none, F).refusal == DW_REFUSAL_COUNT);
}

static void gives_stores(void)
{
    dw_setup s = part_setup();
    dw_store blank = blank_store();
    dw_given_store given = dw_fresh(s);

    CHECK(given.refusal == 0 && same_store(&given.store, &blank));
    s.desks = 0;
    given = dw_fresh(s);
    CHECK(given.refusal == DW_REFUSAL_SETUP);
    for (uint32_t f = 0; f < DW_FILES; f++) {
        CHECK(given.store.holders[f] == 0);
        CHECK(given.store.cells[f].figure == 0 && given.store.cells[f].written == 0);
        for (uint32_t p = 0; p < DW_PROCESSES; p++)
            CHECK(given.store.marks[DW_MARK(f, p)] == 2);
    }
}

/* ---- Calls: what each changes, and that it changes nothing else. */

struct numbers {
    uint32_t op, p, f, x;
};

static struct numbers call_of(uint32_t op, uint32_t p, uint32_t f, uint32_t x)
{
    struct numbers n;

    n.op = op;
    n.p = p;
    n.f = f;
    n.x = x;
    return n;
}

/* Both forms of a call, on the same store: each must answer so, and leave just that store. */
static void call_gives(dw_setup s, dw_store m, struct numbers n, uint32_t kind, uint32_t value, const dw_store *next)
{
    static struct guarded_store lent;
    dw_called called = dw_call(s, m, n.op, n.p, n.f, n.x);
    dw_answer answer;

    CHECK(is_answer(called.answer, kind, value));
    CHECK(same_store(&called.store, next));

    set_guard(lent.before);
    set_guard(lent.after);
    lent.store = m;
    answer = dw_call_in_place(s, &lent.store, n.op, n.p, n.f, n.x);
    CHECK(is_answer(answer, kind, value));
    CHECK(same_store(&lent.store, next));
    CHECK(has_guard(lent.before) && has_guard(lent.after));
}

/* READ tells what the file holds, and changes nothing. */
static void read_gives(const dw_setup *s, const dw_store *m, uint32_t p, uint32_t f)
{
    dw_answer due = reading_of(m->cells[f]);

    call_gives(*s, *m, call_of(DW_READ, p, f, 0), due.kind, due.value, m);
}

/* WRITE leaves a file written, with a figure of 0 too. */
static void write_gives(const dw_setup *s, const dw_store *m, uint32_t p, uint32_t f, uint32_t figure)
{
    dw_store next = *m;

    next.cells[f] = written_cell(figure);
    call_gives(*s, *m, call_of(DW_WRITE, p, f, figure), DW_NOTHING, 0, &next);
    read_gives(s, &next, p, f);
}

/* COPY leaves the one file with all that the other holds, which may be nothing. */
static void copy_gives(const dw_setup *s, const dw_store *m, uint32_t p, uint32_t f, uint32_t x)
{
    dw_store next = *m;

    next.cells[x] = m->cells[f];
    call_gives(*s, *m, call_of(DW_COPY, p, f, x), DW_NOTHING, 0, &next);
}

/* The calls of the process that has file f locked and open, on a store whose neighbouring cells differ. */
static void holder_calls(const dw_setup *s, const dw_store *m, uint32_t f)
{
    uint32_t p = m->holders[f] - 1;
    dw_store next = *m;

    write_gives(s, m, p, f, 0xFEDCBA98u);
    write_gives(s, m, p, f, 0);
    next.holders[f] = 0;
    call_gives(*s, *m, call_of(DW_UNLOCK, p, f, 0), DW_NOTHING, 0, &next);
    next = *m;
    next.marks[DW_MARK(f, p)] = 0;
    call_gives(*s, *m, call_of(DW_CLOSE, p, f, 0), DW_NOTHING, 0, &next);
    read_gives(s, m, p, f);
    call_gives(*s, *m, call_of(DW_TESTLOCK, p, f, 0), DW_YES, 0, m);
    call_gives(*s, *m, call_of(DW_TESTLOCK, (p + 1) % DW_PROCESSES, f, 0), DW_NO, 0, m);
}

/* The calls of a process on file f while it is unlocked; file x is locked by that process, for COPY. */
static void other_calls(const dw_setup *s, const dw_store *m, uint32_t f)
{
    uint32_t x = (f + 1) % DW_FILES, p = m->holders[x] - 1;
    dw_store now = *m, next;

    now.holders[f] = 0;
    now.marks[DW_MARK(f, p)] = 0;
    next = now;
    next.marks[DW_MARK(f, p)] = 1;
    call_gives(*s, now, call_of(DW_OPEN, p, f, 0), DW_NOTHING, 0, &next);
    call_gives(*s, now, call_of(DW_READ, p, f, 0), DW_NOTHING, 0, &now);
    now = next;
    read_gives(s, &now, p, f);
    next.holders[f] = p + 1;
    call_gives(*s, now, call_of(DW_LOCK, p, f, 0), DW_NOTHING, 0, &next);
    copy_gives(s, &now, p, f, x);
}

static void calls_change_one_field(void)
{
    dw_setup s = whole_setup();
    dw_store m = locked_store();

    for (uint32_t i = 0; i < FILES_TRIED; i++) {
        uint32_t f = file_tried(i);

        holder_calls(&s, &m, f);
        other_calls(&s, &m, f);
    }
}

/* Process p has both files open and file x locked. Any of these cells lies in the one file, and any in the other. */
static void cells_meet(const dw_setup *s, uint32_t p, uint32_t f, uint32_t x)
{
    static const dw_cell cells[] = {{.written = 0}, {.written = 1}, {.written = 1, .figure = 1},
                                    {.written = 1, .figure = 256}};
    dw_store m = blank_store();

    m.holders[x] = p + 1;
    m.marks[DW_MARK(f, p)] = m.marks[DW_MARK(x, p)] = 1;
    for (uint32_t i = 0; i < LEN(cells); i++)
        for (uint32_t j = 0; j < LEN(cells); j++) {
            m.cells[f] = cells[i];
            m.cells[x] = cells[j];
            read_gives(s, &m, p, f);
            read_gives(s, &m, p, x);
            write_gives(s, &m, p, x, cells[i].figure);
            copy_gives(s, &m, p, f, x);
        }
}

/* Written mark and figure go together, whatever lay there before: after COPY of an unwritten file the other is unwritten. */
static void written_marks_go_with_figures(void)
{
    dw_setup s = whole_setup();

    cells_meet(&s, 0, 0, DW_FILES - 1);
    cells_meet(&s, DW_PROCESSES - 1, DW_FILES - 1, DW_FILES / 2);
}

/* Where a file's two numbers lie, whatever the header calls them: the store is the library's own, from a fresh one on. */
static void cells_lie_by_file(void)
{
    dw_setup s = whole_setup();

    for (uint32_t i = 0; i < FILES_TRIED; i++) {
        uint32_t f = file_tried(i), figure = 0xFEDCBA00u + f, cell[CELL_WIDTH];
        dw_store m = dw_call(s, dw_fresh(s).store, DW_LOCK, 0, f, 0).store;

        memcpy(cell, (uint8_t *)&m + CELLS_AT + f * CELL_BYTES, CELL_BYTES);
        CHECK(cell[0] == 0 && cell[1] == 0);
        m = dw_call(s, m, DW_WRITE, 0, f, figure).store;
        memcpy(cell, (uint8_t *)&m + CELLS_AT + f * CELL_BYTES, CELL_BYTES);
        CHECK(cell[0] == figure && cell[1] == 1);
    }
}

static void refused_calls_change_nothing(void)
{
    dw_setup s = part_setup();
    dw_store m = blank_store();

    for (uint32_t f = 0; f < F; f++)
        m.cells[f] = cell_at(f);
    call_gives(s, m, call_of(0, P, F, 1), DW_REFUSED, DW_REFUSAL_OPERATION, &m);
    call_gives(s, m, call_of(DW_READ, P, F, 1), DW_REFUSED, DW_REFUSAL_PROCESS, &m);
    call_gives(s, m, call_of(DW_READ, P - 1, F, 1), DW_REFUSED, DW_REFUSAL_FILE, &m);
    call_gives(s, m, call_of(DW_COPY, P - 1, F - 1, F), DW_REFUSED, DW_REFUSAL_FILE, &m);
    call_gives(s, m, call_of(DW_READ, P - 1, F - 1, 1), DW_REFUSED, DW_REFUSAL_EXTRA, &m);
    call_gives(s, m, call_of(DW_COPY, P - 1, F - 1, F - 1), DW_REFUSED, DW_REFUSAL_COPY, &m);
    m.cells[F].written = 1;
    call_gives(s, m, call_of(0, P, F, 1), DW_REFUSED, DW_REFUSAL_STORE, &m);
    m.cells[F].written = 0;
    m.cells[0].figure = 1; /* and not written */
    call_gives(s, m, call_of(0, P, F, 1), DW_REFUSED, DW_REFUSAL_STORE, &m);
    s.processes = 0;
    call_gives(s, m, call_of(0, P, F, 1), DW_REFUSED, DW_REFUSAL_SETUP, &m);
}

/* ---- Lists. */

static struct guarded_numbers list, room;

enum { CALLS_LEN = LEN(list.numbers) };

/* One figure in two is 0. */
static uint32_t any_figure(void)
{
    return below(2) ? below(1000) : 0;
}

/* Any calls: most have numbers that exist, and some have not. */
static void make_list(void)
{
    for (uint32_t i = 0; i < CALLS_LEN; i += DW_CALL_WIDTH) {
        uint32_t op = below(DW_COPY + 1), f = below(DW_FILES);

        list.numbers[i] = op;
        list.numbers[i + 1] = below(DW_PROCESSES + 1);
        list.numbers[i + 2] = f;
        list.numbers[i + 3] = op == DW_WRITE ? any_figure() : op == DW_COPY ? below(DW_FILES) : 0;
    }
}

/* Every number of the room is one that no answer has. */
static void make_room(void)
{
    set_guard(list.before);
    set_guard(list.after);
    set_guard(room.before);
    set_guard(room.after);
    for (uint32_t i = 0; i < CALLS_LEN; i++)
        room.numbers[i] = 0xC0DE0000u + i;
}

static void guards_stand(void)
{
    CHECK(has_guard(list.before) && has_guard(list.after));
    CHECK(has_guard(room.before) && has_guard(room.after));
}

/* The end of each lent run is put at the end of its place, so that the guard lies right past it. */
static uint32_t *last_numbers(struct guarded_numbers *g, size_t len)
{
    return g->numbers + CALLS_LEN - len;
}

static void room_is_untouched(uint32_t from, uint32_t to)
{
    for (uint32_t i = from; i < to; i++)
        CHECK(room.numbers[i] == 0xC0DE0000u + i);
}

/* A list does what its calls do one by one; spare is the room past its answers. */
static void list_is_its_calls(dw_setup s, dw_store m, uint32_t count, uint32_t spare)
{
    uint32_t len = count * DW_CALL_WIDTH, written = count * DW_ANSWER_WIDTH;
    const uint32_t *calls = last_numbers(&list, len);
    uint32_t *answers = last_numbers(&room, written + spare);
    dw_listed listed;

    make_room();
    listed = dw_run(s, m, calls, len, answers, written + spare);
    CHECK(is_answer(listed.answer, DW_DONE, count));
    for (uint32_t i = 0; i < count; i++) {
        const uint32_t *n = calls + i * DW_CALL_WIDTH;
        dw_called called = dw_call(s, m, n[0], n[1], n[2], n[3]);

        CHECK(is_answer(called.answer, answers[DW_ANSWER_WIDTH * i], answers[DW_ANSWER_WIDTH * i + 1]));
        m = called.store;
    }
    CHECK(same_store(&listed.store, &m));
    room_is_untouched(0, (uint32_t)(answers - room.numbers));
    room_is_untouched(CALLS_LEN - spare, CALLS_LEN);
    guards_stand();
}

static void list_is_refused(dw_setup s, dw_store m, size_t calls_len, size_t answers_len, uint32_t refusal)
{
    dw_listed listed;

    make_room();
    listed = dw_run(s, m, last_numbers(&list, calls_len), calls_len, last_numbers(&room, answers_len), answers_len);
    CHECK(is_answer(listed.answer, DW_REFUSED, refusal));
    CHECK(same_store(&listed.store, &m));
    room_is_untouched(0, CALLS_LEN);
    guards_stand();
}

static void lists_keep_to_their_room(void)
{
    dw_setup s = whole_setup();
    dw_store m = opened_store();

    make_list();
    list_is_its_calls(s, m, 0, 0);
    list_is_its_calls(s, m, 1, 0);
    list_is_its_calls(s, m, 7, 1);
    list_is_its_calls(s, m, 100, 33);
    list_is_its_calls(s, m, DW_CALLS, 0);
}

static void refused_lists_write_nothing(void)
{
    enum { TWO_CALLS = 2 * DW_CALL_WIDTH, TWO_ANSWERS = 2 * DW_ANSWER_WIDTH };
    dw_setup s = whole_setup();
    dw_store m = opened_store();

    make_list();
    list_is_refused(s, m, TWO_CALLS + 1, CALLS_LEN, DW_REFUSAL_LENGTH);
    list_is_refused(s, m, (DW_CALLS + 1) * DW_CALL_WIDTH, CALLS_LEN, DW_REFUSAL_LENGTH);
    list_is_refused(s, m, TWO_CALLS, TWO_ANSWERS - 1, DW_REFUSAL_ROOM);
    m.cells[3].written = 2;
    list_is_refused(s, m, TWO_CALLS + 1, 0, DW_REFUSAL_STORE);
    m.cells[3] = unwritten_cell;
    m.marks[DW_MARK(3, 5)] = 2;
    list_is_refused(s, m, TWO_CALLS + 1, 0, DW_REFUSAL_STORE);
    s.files = 0;
    list_is_refused(s, m, TWO_CALLS + 1, 0, DW_REFUSAL_SETUP);
}

/* ---- Lists from a fresh store. */

/* The setup of document 01's trial: process n sits at desk n, file n has class n. */
static dw_setup trial_setup(void)
{
    dw_setup s;

    memset(&s, 0, sizeof s);
    s.desks = s.processes = 3;
    s.classes = s.files = 2;
    s.rights[0] = DW_W;
    s.rights[DW_CLASSES] = DW_R;
    s.rights[DW_CLASSES + 1] = DW_W;
    s.rights[2 * DW_CLASSES + 1] = DW_R;
    for (uint8_t n = 0; n < 3; n++)
        s.desk_of[n] = n;
    s.class_of[1] = 1;
    return s;
}

enum { SHORT_LIST = 32 };

/* The store after a list of a few calls from a fresh one, and the answer of the last. */
static dw_store after_list(dw_setup s, const uint32_t *calls, uint32_t len, dw_answer *last)
{
    uint32_t answers[SHORT_LIST * DW_ANSWER_WIDTH] = {0}, written = len / DW_CALL_WIDTH * DW_ANSWER_WIDTH;
    dw_listed listed = dw_run(s, dw_fresh(s).store, calls, len, answers, LEN(answers));

    CHECK(is_answer(listed.answer, DW_DONE, len / DW_CALL_WIDTH));
    last->kind = answers[written - 2];
    last->value = answers[written - 1];
    return listed.store;
}

static void list_ends_in(dw_setup s, const uint32_t *calls, uint32_t len, uint32_t kind, uint32_t value)
{
    dw_answer last;

    after_list(s, calls, len, &last);
    CHECK(is_answer(last, kind, value));
}

/* Cases 1, 2, 6 and 7 of document 01, which end as 02 has them; then case 7 with a WRITE of 0, which is a figure too.
 * Case 7 begins with case 6. First two READs of a written file that do not go through: of an unwritten one they would
 * answer the same if they did. */
static void cases_end_as_they_should(void)
{
    static const uint32_t fresh[] = {DW_OPEN, 1, 0, 0, DW_READ, 1, 0, 0};
    static const uint32_t no_lock[] = {DW_WRITE, 0, 0, 5, DW_OPEN, 1, 0, 0, DW_READ, 1, 0, 0};
    uint32_t read_again[] = {DW_OPEN,  1, 0, 0, DW_LOCK,   0, 0, 0, DW_READ, 1, 0, 0,
                             DW_WRITE, 0, 0, 6, DW_UNLOCK, 0, 0, 0, DW_READ, 1, 0, 0};
    static const uint32_t locked[] = {DW_OPEN, 1, 0, 0, DW_LOCK, 0, 0, 0, DW_WRITE, 0, 0, 6, DW_READ, 1, 0, 0};
    static const uint32_t unopened[] = {DW_LOCK, 0, 0, 0, DW_WRITE, 0, 0, 6, DW_UNLOCK, 0, 0, 0, DW_READ, 1, 0, 0};
    enum { CASE_6 = 3 * DW_CALL_WIDTH, WRITTEN = CASE_6 + 3 };
    dw_setup s = trial_setup();

    list_ends_in(s, locked, LEN(locked), DW_NOTHING, 0);
    list_ends_in(s, unopened, LEN(unopened), DW_NOTHING, 0);
    list_ends_in(s, fresh, LEN(fresh), DW_NOTHING, 0);
    list_ends_in(s, no_lock, LEN(no_lock), DW_NOTHING, 0);
    list_ends_in(s, read_again, CASE_6, DW_NOTHING, 0);
    list_ends_in(s, read_again, LEN(read_again), DW_FIGURE, 6);
    read_again[WRITTEN] = 0;
    list_ends_in(s, read_again, LEN(read_again), DW_FIGURE, 0);
}

/* The store after such a list, call by call in place. */
static dw_store after_calls(const uint32_t *calls, uint32_t len)
{
    dw_setup s = trial_setup();
    dw_store m = dw_fresh(s).store;

    for (uint32_t i = 0; i < len; i += DW_CALL_WIDTH)
        dw_call_in_place(s, &m, calls[i], calls[i + 1], calls[i + 2], calls[i + 3]);
    return m;
}

/* Two lists that leave the same state leave the same bytes, run as a list or call by call. */
static void states_are_bytes(void)
{
    static const uint32_t at_once[] = {DW_LOCK, 0, 0, 0, DW_WRITE, 0, 0, 0, DW_UNLOCK, 0, 0, 0};
    static const uint32_t over_six[] = {DW_OPEN,  1, 0, 0, DW_LOCK,   0, 0, 0, DW_WRITE, 0, 0, 6,
                                        DW_WRITE, 0, 0, 0, DW_UNLOCK, 0, 0, 0, DW_CLOSE, 1, 0, 0};
    static const uint32_t taken_back[] = {DW_OPEN, 1, 0, 0, DW_LOCK,   1, 1, 0, DW_WRITE, 1, 1, 5,
                                          DW_COPY, 1, 0, 1, DW_UNLOCK, 1, 1, 0, DW_CLOSE, 1, 0, 0};
    dw_store blank = blank_store(), one, other;
    dw_answer last;

    one = after_list(trial_setup(), at_once, LEN(at_once), &last);
    other = after_calls(over_six, LEN(over_six));
    CHECK(same_store(&one, &other));
    CHECK(!same_store(&one, &blank));
    one = after_list(trial_setup(), taken_back, LEN(taken_back), &last);
    other = after_calls(taken_back, LEN(taken_back));
    CHECK(same_store(&one, &blank) && same_store(&other, &blank));
}

/* ---- Routes. */

/* The lists of cases 9 and 10: desk 0's three calls come first. */
static const uint32_t two_links[] = {DW_LOCK,   0, 0, 0, DW_WRITE, 0, 0, 1, DW_UNLOCK, 0, 0, 0,
                                     DW_OPEN,   1, 0, 0, DW_LOCK,  1, 1, 0, DW_COPY,   1, 0, 1,
                                     DW_UNLOCK, 1, 1, 0, DW_OPEN,  2, 1, 0, DW_READ,   2, 1, 0};
static const uint32_t one_link[] = {DW_LOCK,   0, 0, 0, DW_WRITE, 0, 0, 1, DW_UNLOCK, 0, 0, 0,
                                    DW_OPEN,   1, 0, 0, DW_READ,  1, 0, 0};

/* The last desk reads figure 1, and nothing once the first desk's calls are struck out. */
static void route_is_heard(dw_setup s, const uint32_t *calls, uint32_t len)
{
    enum { FIRST_DESKS = 3 * DW_CALL_WIDTH };

    list_ends_in(s, calls, len, DW_FIGURE, 1);
    list_ends_in(s, calls + FIRST_DESKS, len - FIRST_DESKS, DW_NOTHING, 0);
}

static void routes_are_heard(void)
{
    route_is_heard(trial_setup(), two_links, LEN(two_links));
    route_is_heard(trial_setup(), one_link, LEN(one_link));
}

/* The run that starts here has these numbers in front, and all the rest of the room is as it was made. */
static void room_has(const uint32_t *at, const uint32_t *expected, uint32_t len)
{
    uint32_t from = (uint32_t)(at - room.numbers);

    CHECK(memcmp(at, expected, len * sizeof at[0]) == 0);
    room_is_untouched(0, from);
    room_is_untouched(from + len, CALLS_LEN);
    guards_stand();
}

/* The report writes the list and not a number more; with len of 0 expected it writes nothing. */
static void route_is(dw_setup s, uint32_t a, uint32_t b, size_t room_len, uint32_t kind, uint32_t value,
                     const uint32_t *expected, uint32_t len)
{
    uint32_t *at = last_numbers(&room, room_len);

    make_room();
    CHECK(is_answer(dw_route(s, a, b, at, room_len), kind, value));
    room_has(at, expected, len);
}

/* Cases 9, 10 and 11 of document 01, and the other refusals in their order. */
static void routes_keep_to_their_room(void)
{
    dw_setup s = trial_setup();

    route_is(s, 0, 2, DW_ROUTE_NUMBERS, DW_ROUTE, DW_ROUTE_CALLS(2), two_links, LEN(two_links));
    route_is(s, 0, 1, DW_ROUTE_NUMBERS + 5, DW_ROUTE, DW_ROUTE_CALLS(1), one_link, LEN(one_link));
    route_is(s, 2, 0, DW_ROUTE_NUMBERS, DW_NO_ROUTE, 0, one_link, 0);
    route_is(s, 1, 1, 0, DW_REFUSED, DW_REFUSAL_SAME_DESK, one_link, 0);
    route_is(s, 3, 3, 0, DW_REFUSED, DW_REFUSAL_ROUTE_DESK, one_link, 0);
    route_is(s, 0, 0xFFFFFFFFu, 0, DW_REFUSED, DW_REFUSAL_ROUTE_DESK, one_link, 0);
    route_is(s, 0, 2, DW_ROUTE_NUMBERS - 1, DW_REFUSED, DW_REFUSAL_ROOM, one_link, 0);
    s.class_of[2] = 1;
    route_is(s, 3, 3, 0, DW_REFUSED, DW_REFUSAL_SETUP, one_link, 0);
}

/* ---- Grids. */

_Static_assert(DW_GRID_AT(DW_DESKS, DW_DESKS - 1, DW_DESKS - 1) == DW_GRID_NUMBERS - 1, "the last of the most numbers");
_Static_assert(DW_DESKS <= DW_CLASSES && DW_DESKS <= DW_PROCESSES && DW_DESKS <= DW_FILES, "a ring can have all desks");

/* Desk 3 writes to 0, 0 to 4, and 4 to 1 and back to 0. Desk 2 would stand between 0 and 1, but it has no process; 1 would
 * write to 3, but by class 3, which has no file. */
static const dw_setup five_desks = {
    .desks = 5,
    .classes = 4,
    .processes = 5,
    .files = 3,
    .rights = {[0 * DW_CLASSES] = DW_R,    DW_W,    DW_R,    DW_NONE,
               [1 * DW_CLASSES] = DW_NONE, DW_NONE, DW_R,    DW_W,
               [2 * DW_CLASSES] = DW_NONE, DW_R,    DW_W,    DW_NONE,
               [3 * DW_CLASSES] = DW_W,    DW_NONE, DW_NONE, DW_R,
               [4 * DW_CLASSES] = DW_NONE, DW_R,    DW_W,    DW_NONE},
    .desk_of = {4, 0, 3, 1, 4},
    .class_of = {2, 0, 1},
};

/* A row for each desk that is heard. The grid is not its own transpose, so that rows taken for columns are seen. */
static const uint32_t five_links[] = {0, 2, 0, 0, 1,
                                      0, 0, 0, 0, 0,
                                      0, 0, 0, 0, 0,
                                      1, 3, 0, 0, 2,
                                      1, 1, 0, 0, 0};

enum { FIVE_LEN = LEN(five_links) };

/* Each desk writes to the next, by a class that no other has, and the last one to the first. */
static dw_setup ring_setup(uint32_t desks)
{
    dw_setup s;

    memset(&s, 0, sizeof s);
    s.desks = s.classes = s.processes = s.files = desks;
    for (uint32_t d = 0; d < desks; d++) {
        s.rights[d * DW_CLASSES + d] |= DW_W;
        s.rights[(d + 1) % desks * DW_CLASSES + d] |= DW_R;
        s.desk_of[d] = s.class_of[d] = (uint8_t)d;
    }
    return s;
}

/* Its numbers go to the front of the room and no further. */
static void grid_is(dw_setup s, size_t room_len, const uint32_t *links, uint32_t len)
{
    uint32_t *at = last_numbers(&room, room_len);

    make_room();
    CHECK(is_answer(dw_grid(s, at, room_len), DW_DONE, len));
    room_has(at, links, len);
}

static void grid_is_refused(dw_setup s, size_t room_len, uint32_t refusal)
{
    make_room();
    CHECK(is_answer(dw_grid(s, last_numbers(&room, room_len), room_len), DW_REFUSED, refusal));
    room_is_untouched(0, CALLS_LEN);
    guards_stand();
}

/* One link for each step forward; the way all round, to the desk itself, is not told. The least room is counted in
 * numbers, and one less is refused. */
static void ring_is_counted(uint32_t desks)
{
    dw_setup s = ring_setup(desks);
    uint32_t links[DW_GRID_NUMBERS], len = desks * desks;

    for (uint32_t a = 0; a < desks; a++)
        for (uint32_t b = 0; b < desks; b++)
            links[DW_GRID_AT(desks, a, b)] = (b + desks - a) % desks;
    grid_is(s, len, links, len);
    grid_is(s, DW_GRID_NUMBERS, links, len);
    grid_is_refused(s, len - 1, DW_REFUSAL_ROOM);
}

/* A row is as long as the setup has desks, so that rows as long as the most would be seen with each lesser number. */
static void grids_keep_to_their_room(void)
{
    grid_is(five_desks, FIVE_LEN, five_links, FIVE_LEN);
    grid_is(five_desks, FIVE_LEN + 1, five_links, FIVE_LEN);
    grid_is(five_desks, DW_GRID_NUMBERS, five_links, FIVE_LEN);
    grid_is(five_desks, CALLS_LEN, five_links, FIVE_LEN);
    for (uint32_t desks = 1; desks <= DW_DESKS; desks++)
        ring_is_counted(desks);
}

/* A setup is refused before the room, whether that is long enough or not. An unsound number of desks comes with room of its
 * square, which is 0 in 32 bits for the greatest of them. */
static void refused_grids_write_nothing(void)
{
    enum { TOO_MANY = DW_DESKS + 1 };
    dw_setup s = five_desks;

    grid_is_refused(s, FIVE_LEN - 1, DW_REFUSAL_ROOM);
    grid_is_refused(s, 0, DW_REFUSAL_ROOM);
    s.class_of[3] = 1;
    grid_is_refused(s, FIVE_LEN, DW_REFUSAL_SETUP);
    grid_is_refused(s, FIVE_LEN - 1, DW_REFUSAL_SETUP);
    grid_is_refused(s, 0, DW_REFUSAL_SETUP);
    s = five_desks;
    s.desks = 0;
    grid_is_refused(s, 0, DW_REFUSAL_SETUP);
    s.desks = TOO_MANY;
    grid_is_refused(s, TOO_MANY * TOO_MANY, DW_REFUSAL_SETUP);
    s.desks = 0x10000u;
    grid_is_refused(s, 0, DW_REFUSAL_SETUP);
}

/* ---- Gates. */

/* Desk 6 writes to 1, 2 and 7; 1 to 4; 4 to 3 and 5; 3 to 2 and 7, which both write to 0; 0 to 5; 5 to 6 and 4. Classes 0
 * and 2 have two files each, desks 3 and 6 two processes each, and no process sits at the desk of its own number. */
static const dw_setup eight_desks = {
    .desks = 8,
    .classes = 7,
    .processes = 10,
    .files = 9,
    .rights = {[0 * DW_CLASSES] = DW_NONE, DW_NONE, DW_NONE, DW_NONE, DW_R,    DW_W,    DW_NONE,
               [1 * DW_CLASSES] = DW_R,    DW_W,    DW_NONE, DW_NONE, DW_NONE, DW_NONE, DW_NONE,
               [2 * DW_CLASSES] = DW_R,    DW_NONE, DW_NONE, DW_R,    DW_W,    DW_NONE, DW_NONE,
               [3 * DW_CLASSES] = DW_NONE, DW_NONE, DW_R,    DW_W,    DW_NONE, DW_NONE, DW_NONE,
               [4 * DW_CLASSES] = DW_NONE, DW_R,    DW_W,    DW_NONE, DW_NONE, DW_NONE, DW_R,
               [5 * DW_CLASSES] = DW_NONE, DW_NONE, DW_R,    DW_NONE, DW_NONE, DW_R,    DW_W,
               [6 * DW_CLASSES] = DW_W,    DW_NONE, DW_NONE, DW_NONE, DW_NONE, DW_NONE, DW_R,
               [7 * DW_CLASSES] = DW_R,    DW_NONE, DW_NONE, DW_R,    DW_W,    DW_NONE, DW_NONE},
    .desk_of = {1, 5, 4, 6, 7, 3, 3, 0, 2, 6},
    .class_of = {5, 0, 2, 6, 3, 0, 1, 4, 2},
};

/* The chain over desk 1 would have three links, 6, 1, 4, 3. Around desk 1 it has five: 6, 2, 0, 5, 4, 3. */
static const uint32_t around[] = {DW_LOCK,   3, 1, 0, DW_WRITE,  3, 1, 1, DW_UNLOCK, 3, 1, 0,
                                  DW_OPEN,   8, 1, 0, DW_LOCK,   8, 7, 0, DW_COPY,   8, 1, 7,
                                  DW_UNLOCK, 8, 7, 0, DW_OPEN,   7, 7, 0, DW_LOCK,   7, 0, 0,
                                  DW_COPY,   7, 7, 0, DW_UNLOCK, 7, 0, 0, DW_OPEN,   1, 0, 0,
                                  DW_LOCK,   1, 3, 0, DW_COPY,   1, 0, 3, DW_UNLOCK, 1, 3, 0,
                                  DW_OPEN,   2, 3, 0, DW_LOCK,   2, 2, 0, DW_COPY,   2, 3, 2,
                                  DW_UNLOCK, 2, 2, 0, DW_OPEN,   5, 2, 0, DW_READ,   5, 2, 0};

/* The chain that goes around a gate: the process that acts for each of its desks, and the file of each link. With no link
 * the gate guards. */
struct chain {
    uint32_t a, b, gate, links;
    uint8_t processes[DW_DESKS], files[DW_DESKS];
};

/* Each order of desks 1, 3 and 6 has another number of links. Others follow. */
static const struct chain chains[] = {
    {3, 1, 6, 0, {0}, {0}},
    {6, 1, 3, 1, {3, 0}, {1}},
    {1, 3, 6, 2, {0, 2, 5}, {6, 2}},
    {1, 6, 3, 3, {0, 2, 1, 3}, {6, 2, 3}},
    {3, 6, 1, 4, {5, 8, 7, 1, 3}, {4, 7, 0, 3}},
    {6, 3, 1, 5, {3, 8, 7, 1, 2, 5}, {1, 7, 0, 3, 2}},
    {3, 6, 7, 4, {5, 8, 7, 1, 3}, {4, 7, 0, 3}}, /* desks 2 and 7 have the same rights, and 2 is the lower */
    {3, 6, 2, 4, {5, 4, 7, 1, 3}, {4, 7, 0, 3}}, /* 7 acts where 2 is the gate */
    {6, 3, 2, 3, {3, 0, 2, 5}, {1, 6, 2}},       /* the gate stands beside the fewest links */
    {6, 3, 4, 0, {0}, {0}},                      /* both ways to 3 pass the gate */
    {3, 6, 0, 0, {0}, {0}},                      /* so do both from 3 */
};

/* Of the grid's five desks, where a desk without a process, or a class without a file, would lead around a gate. */
static const struct chain chains_of_five[] = {
    {0, 1, 4, 0, {0}, {0}},
    {4, 3, 0, 0, {0}, {0}},
    {0, 2, 4, 0, {0}, {0}},
    {0, 1, 2, 2, {1, 0, 3}, {2, 0}},
};

static uint32_t *put_call(uint32_t *at, struct numbers n)
{
    at[0] = n.op;
    at[1] = n.p;
    at[2] = n.f;
    at[3] = n.x;
    return at + DW_CALL_WIDTH;
}

/* Lays out the calls of a chain that has links, and answers how many numbers they take. */
static uint32_t lay_out_chain(const struct chain *c, uint32_t *calls)
{
    const uint8_t *p = c->processes, *f = c->files;
    uint32_t *at = calls;

    at = put_call(at, call_of(DW_LOCK, p[0], f[0], 0));
    at = put_call(at, call_of(DW_WRITE, p[0], f[0], 1));
    at = put_call(at, call_of(DW_UNLOCK, p[0], f[0], 0));
    for (uint32_t i = 1; i < c->links; i++) {
        at = put_call(at, call_of(DW_OPEN, p[i], f[i - 1], 0));
        at = put_call(at, call_of(DW_LOCK, p[i], f[i], 0));
        at = put_call(at, call_of(DW_COPY, p[i], f[i - 1], f[i]));
        at = put_call(at, call_of(DW_UNLOCK, p[i], f[i], 0));
    }
    at = put_call(at, call_of(DW_OPEN, p[c->links], f[c->links - 1], 0));
    at = put_call(at, call_of(DW_READ, p[c->links], f[c->links - 1], 0));
    return (uint32_t)(at - calls);
}

/* The report writes the list and not a number more; with len of 0 expected it writes nothing. */
static void gate_is(dw_setup s, struct chain c, size_t room_len, uint32_t kind, uint32_t value, const uint32_t *expected,
                    uint32_t len)
{
    uint32_t *at = last_numbers(&room, room_len);

    make_room();
    CHECK(is_answer(dw_gate(s, c.a, c.b, c.gate, at, room_len), kind, value));
    room_has(at, expected, len);
}

static void chain_is_written(dw_setup s, struct chain c)
{
    uint32_t expected[DW_ROUTE_NUMBERS] = {0};

    if (c.links == 0)
        gate_is(s, c, DW_ROUTE_NUMBERS, DW_GUARDED, 0, expected, 0);
    else
        gate_is(s, c, DW_ROUTE_NUMBERS, DW_UNGUARDED, DW_ROUTE_CALLS(c.links), expected, lay_out_chain(&c, expected));
}

/* In a ring the only way leads forward, and a gate that stands on it guards. */
static struct chain ring_chain(uint32_t desks, uint32_t a, uint32_t b, uint32_t gate)
{
    uint32_t links = (b + desks - a) % desks, to_gate = (gate + desks - a) % desks;
    struct chain c = {a, b, gate, links < to_gate ? links : 0, {0}, {0}};

    for (uint32_t i = 0; i <= links; i++)
        c.processes[i] = c.files[i] = (uint8_t)((a + i) % desks);
    return c;
}

/* From one desk to every other, with each of the rest for a gate. */
static void ring_is_gated(uint32_t desks)
{
    dw_setup s = ring_setup(desks);
    uint32_t a = desks / 2;

    for (uint32_t b = 0; b < desks; b++)
        for (uint32_t gate = 0; gate < desks; gate++)
            if (a != b && a != gate && b != gate)
                chain_is_written(s, ring_chain(desks, a, b, gate));
}

/* A desk taken for another one is seen, whichever two are. */
static void gates_take_their_desks(void)
{
    for (uint32_t i = 0; i < LEN(chains); i++)
        chain_is_written(eight_desks, chains[i]);
    for (uint32_t i = 0; i < LEN(chains_of_five); i++)
        chain_is_written(five_desks, chains_of_five[i]);
    for (uint32_t desks = 3; desks <= DW_DESKS; desks++)
        ring_is_gated(desks);
}

/* None of the calls is of desk 1, which has process 0 alone. */
static void gates_are_heard(void)
{
    route_is_heard(eight_desks, around, LEN(around));
    for (uint32_t i = 0; i < LEN(around); i += DW_CALL_WIDTH)
        CHECK(eight_desks.desk_of[around[i + 1]] != 1);
}

/* The least room is the report's, and a longer one is filled no further. */
static void gates_keep_to_their_room(void)
{
    static const size_t rooms[] = {DW_ROUTE_NUMBERS, DW_ROUTE_NUMBERS + 1, DW_ROUTE_NUMBERS + 5, CALLS_LEN};
    struct chain unguarded = {.a = 6, .b = 3, .gate = 1}, guarded = {.a = 3, .b = 1, .gate = 6};

    for (uint32_t i = 0; i < LEN(rooms); i++) {
        gate_is(eight_desks, unguarded, rooms[i], DW_UNGUARDED, DW_ROUTE_CALLS(5), around, LEN(around));
        gate_is(eight_desks, guarded, rooms[i], DW_GUARDED, 0, around, 0);
    }
    gate_is(trial_setup(), (struct chain){.a = 0, .b = 2, .gate = 1}, DW_ROUTE_NUMBERS, DW_GUARDED, 0, one_link, 0);
    gate_is(trial_setup(), (struct chain){.a = 0, .b = 1, .gate = 2}, DW_ROUTE_NUMBERS, DW_UNGUARDED, DW_ROUTE_CALLS(1),
            one_link, LEN(one_link));
}

static void gate_is_refused(dw_setup s, uint32_t a, uint32_t b, uint32_t gate, size_t room_len, uint32_t refusal)
{
    make_room();
    CHECK(is_answer(dw_gate(s, a, b, gate, last_numbers(&room, room_len), room_len), DW_REFUSED, refusal));
    room_is_untouched(0, CALLS_LEN);
    guards_stand();
}

/* A number that is no desk's, in each place, is refused before equal desks and before the room. */
static void no_desk_is_refused(dw_setup s, uint32_t none)
{
    gate_is_refused(s, none, 3, 1, DW_ROUTE_NUMBERS, DW_REFUSAL_ROUTE_DESK);
    gate_is_refused(s, 6, none, 1, DW_ROUTE_NUMBERS, DW_REFUSAL_ROUTE_DESK);
    gate_is_refused(s, 6, 3, none, DW_ROUTE_NUMBERS, DW_REFUSAL_ROUTE_DESK);
    gate_is_refused(s, none, 3, 3, 0, DW_REFUSAL_ROUTE_DESK);
    gate_is_refused(s, 6, none, 6, 0, DW_REFUSAL_ROUTE_DESK);
    gate_is_refused(s, 6, 6, none, 0, DW_REFUSAL_ROUTE_DESK);
    gate_is_refused(s, none, none, none, 0, DW_REFUSAL_ROUTE_DESK);
}

/* With one desk or two there is none left for a gate. */
static void few_desks_are_refused(uint32_t desks)
{
    dw_setup s = ring_setup(desks);

    for (uint32_t a = 0; a <= desks; a++)
        for (uint32_t b = 0; b <= desks; b++)
            for (uint32_t gate = 0; gate <= desks; gate++)
                gate_is_refused(s, a, b, gate, DW_ROUTE_NUMBERS,
                                a < desks && b < desks && gate < desks ? DW_REFUSAL_SAME_DESK : DW_REFUSAL_ROUTE_DESK);
    s.class_of[s.files] = 1;
    gate_is_refused(s, 0, 0, 0, 0, DW_REFUSAL_SETUP);
}

/* Some numbers have a desk's for their low byte or low half, so that a library that looked there alone would be seen. The
 * room is judged where a gate guards too, and last. */
static void refused_gates_write_nothing(void)
{
    enum { NO_DESK = 8 };
    static const uint32_t no_desks[] = {NO_DESK, DW_DESKS, 0x100, 0x10000, 0x80000000u, 0xFFFFFFFFu};
    dw_setup s = eight_desks;

    for (uint32_t i = 0; i < LEN(no_desks); i++)
        no_desk_is_refused(s, no_desks[i]);
    gate_is_refused(s, 6, 6, 1, 0, DW_REFUSAL_SAME_DESK);
    gate_is_refused(s, 6, 3, 6, 0, DW_REFUSAL_SAME_DESK);
    gate_is_refused(s, 6, 3, 3, 0, DW_REFUSAL_SAME_DESK);
    gate_is_refused(s, 3, 3, 3, DW_ROUTE_NUMBERS, DW_REFUSAL_SAME_DESK);
    gate_is_refused(s, 6, 3, 1, DW_ROUTE_NUMBERS - 1, DW_REFUSAL_ROOM);
    gate_is_refused(s, 3, 1, 6, DW_ROUTE_NUMBERS - 1, DW_REFUSAL_ROOM);
    gate_is_refused(s, 6, 3, 1, 0, DW_REFUSAL_ROOM);
    few_desks_are_refused(1);
    few_desks_are_refused(2);
    s.class_of[s.files] = 1;
    gate_is_refused(s, 6, 3, 1, DW_ROUTE_NUMBERS, DW_REFUSAL_SETUP);
    gate_is_refused(s, 3, 1, 6, DW_ROUTE_NUMBERS, DW_REFUSAL_SETUP);
    gate_is_refused(s, NO_DESK, NO_DESK, NO_DESK, 0, DW_REFUSAL_SETUP);
}

/* ---- Texts. The trial setup and two calls, with a guard right past the last byte. */

#define LAST_FILE "file\t1\t1\n"
#define CALLS_LINE "calls\t1\n"
#define LAST_CALL "testlock\t2\t1\n"
#define BYTES(line) (sizeof(line) - 1)

static const char setup_lines[] = "store\t1\t3\t2\t3\t2\naccess\t0\t0\tW\naccess\t1\t0\tR\naccess\t1\t1\tW\n"
                                  "access\t2\t1\tR\nprocess\t0\t0\nprocess\t1\t1\nprocess\t2\t2\nfile\t0\t0\n" LAST_FILE;
static const char call_lines[] = CALLS_LINE "write\t4294967295\t7\t8\n" LAST_CALL;

static struct guarded_text {
    uint8_t before[GUARD];
    uint8_t bytes[BYTES(setup_lines) + BYTES(call_lines)];
    uint8_t after[GUARD];
} text;

/* Puts bytes at the end of the text's place and answers where they start. */
static uint8_t *make_text(const char *one, const char *other)
{
    size_t len = 0, i = 0;

    while (one[len] != 0)
        len++;
    while (other[i] != 0)
        i++;
    set_guard(text.before);
    set_guard(text.after);
    memcpy(text.bytes + sizeof text.bytes - i, other, i);
    memcpy(text.bytes + sizeof text.bytes - i - len, one, len);
    return text.bytes + sizeof text.bytes - i - len;
}

static size_t len_from(const uint8_t *at)
{
    return (size_t)(text.bytes + sizeof text.bytes - at);
}

/* What is read of a text, or why it is refused; no refusal hands back a setup. */
static void text_is(dw_text t, uint32_t kind, uint32_t value, size_t offset, const dw_setup *s)
{
    CHECK(is_answer(t.answer, kind, value));
    CHECK(t.offset == offset);
    CHECK(memcmp(&t.setup, s, sizeof *s) == 0);
    CHECK(has_guard(text.before) && has_guard(text.after));
}

static void setups_are_read(void)
{
    dw_setup s = trial_setup(), none;
    uint8_t *at = make_text(setup_lines, "");

    memset(&none, 0, sizeof none);
    text_is(dw_read_alone(at, len_from(at)), DW_DONE, 0, 0, &s);
    text_is(dw_read_alone(at, len_from(at) - 1), DW_REFUSED, DW_REFUSAL_LINE, len_from(at) - BYTES(LAST_FILE), &none);
    text_is(dw_read_alone(at, 0), DW_REFUSED, DW_REFUSAL_LINE, 0, &none);
    at = make_text(setup_lines, CALLS_LINE);
    text_is(dw_read_alone(at, len_from(at)), DW_REFUSED, DW_REFUSAL_LINE, len_from(at) - BYTES(CALLS_LINE), &none);
}

/* The calls go to the front of the room and no further; a refusal leaves it as it was. */
static void texts_keep_to_their_room(void)
{
    static const uint32_t expected[] = {DW_WRITE, 0xFFFFFFFFu, 7, 8, DW_TESTLOCK, 2, 1, 0};
    enum { WRITTEN = LEN(expected), SPARE = CALLS_LEN - DW_CALL_NUMBERS };
    dw_setup s = trial_setup(), none;
    uint8_t *at = make_text(setup_lines, call_lines);
    uint32_t *front = last_numbers(&room, DW_CALL_NUMBERS);

    memset(&none, 0, sizeof none);
    make_room();
    text_is(dw_read_with_calls(at, len_from(at) - 1, front, DW_CALL_NUMBERS), DW_REFUSED, DW_REFUSAL_LINE,
            len_from(at) - BYTES(LAST_CALL), &none);
    text_is(dw_read_with_calls(at, len_from(at), front + 1, DW_CALL_NUMBERS - 1), DW_REFUSED, DW_REFUSAL_ROOM, 0, &none);
    room_is_untouched(0, CALLS_LEN);
    text_is(dw_read_with_calls(at, len_from(at), front, DW_CALL_NUMBERS), DW_DONE, WRITTEN / DW_CALL_WIDTH, 0, &s);
    CHECK(memcmp(front, expected, sizeof expected) == 0);
    room_is_untouched(0, SPARE);
    room_is_untouched(SPARE + WRITTEN, CALLS_LEN);
    guards_stand();
}

/* ---- */

static const struct group {
    const char *name;
    void (*run)(void);
} groups[] = {
    {"a setup's counts are read", reads_counts},
    {"a setup's entries are read", reads_entries},
    {"a setup's rights are read where they lie", reads_rights},
    {"a store's cells and open marks are read", reads_cells_and_marks},
    {"a store's holders are read", reads_holders},
    {"every field of a store is judged", judges_every_field},
    {"an accepted setup comes back in every field", gives_setups},
    {"a setup's lengths are matched", matches_lengths},
    {"a fresh store comes back in every field", gives_stores},
    {"a call changes its one field", calls_change_one_field},
    {"a written mark goes with its figure", written_marks_go_with_figures},
    {"a file's cell lies by its number, the figure first", cells_lie_by_file},
    {"a refused call changes nothing", refused_calls_change_nothing},
    {"a list keeps to its room", lists_keep_to_their_room},
    {"a refused list writes nothing", refused_lists_write_nothing},
    {"cases 1, 2, 6 and 7 of documents 01 and 02 end as they should", cases_end_as_they_should},
    {"two ways to one state leave the same bytes", states_are_bytes},
    {"a route is heard, and nothing without its first desk", routes_are_heard},
    {"a route keeps to its room", routes_keep_to_their_room},
    {"a grid keeps to its room", grids_keep_to_their_room},
    {"a refused grid writes nothing", refused_grids_write_nothing},
    {"a gate takes each desk by its place", gates_take_their_desks},
    {"the way around a gate is heard, and nothing without its first desk", gates_are_heard},
    {"a gate keeps to its room", gates_keep_to_their_room},
    {"a refused gate writes nothing", refused_gates_write_nothing},
    {"a setup text is read alone", setups_are_read},
    {"a text's calls keep to their room", texts_keep_to_their_room},
};

int main(void)
{
    int passed = 0, failed = 0;

    for (size_t i = 0; i < LEN(groups); i++) {
        faults = 0;
        groups[i].run();
        if (faults == 0)
            passed++;
        else
            failed++;
        printf("layout: %s: %s\n", groups[i].name, faults == 0 ? "ok" : "FAILED");
    }
    printf("%d passed, %d failed\n", passed, failed);
    return failed != 0;
}
