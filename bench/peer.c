/* A store written by hand in C, as one would write it with no proof in mind: the same structs, the same checks
 * in the same order, the same rules, on one store in place. Nothing here is proved; the benchmark compares every
 * answer, and the stores. */
#include "peer.h"

/* ---- Judging. */

/* Every entry before the count is below the bound, and every entry past it is 0. */
static inline int entries_fit(const uint8_t *entries, uint32_t len, uint32_t count, uint32_t bound)
{
    for (uint32_t i = 0; i < count; i++)
        if (entries[i] >= bound)
            return 0;
    for (uint32_t i = count; i < len; i++)
        if (entries[i] != 0)
            return 0;
    return 1;
}

static int within(uint32_t count, uint32_t most)
{
    return count >= 1 && count <= most;
}

static int accepted(const dw_setup *s)
{
    if (!within(s->desks, DW_DESKS) || !within(s->classes, DW_CLASSES) ||
        !within(s->processes, DW_PROCESSES) || !within(s->files, DW_FILES))
        return 0;
    for (uint32_t d = 0; d < DW_DESKS; d++)
        if (!entries_fit(s->rights + d * DW_CLASSES, DW_CLASSES, d < s->desks ? s->classes : 0, DW_RW + 1))
            return 0;
    return entries_fit(s->desk_of, DW_PROCESSES, s->processes, s->desks) &&
           entries_fit(s->class_of, DW_FILES, s->files, s->classes);
}

static uint8_t right_of(const dw_setup *s, uint32_t p, uint32_t f)
{
    return s->rights[s->desk_of[p] * DW_CLASSES + s->class_of[f]];
}

static int is_blank(const dw_cell *c)
{
    return c->figure == 0 && c->written == 0;
}

static int cell_fits(const dw_cell *c)
{
    return c->written == 1 || is_blank(c);
}

static int file_is_blank(const dw_store *m, uint32_t f)
{
    return m->holders[f] == 0 && is_blank(&m->cells[f]) && entries_fit(m->marks + DW_MARK(f, 0), DW_PROCESSES, 0, 0);
}

/* The cell comes last: with the same check before the marks, other code came out, and each call took 1.6 times as long. */
static int file_fits(const dw_setup *s, const dw_store *m, uint32_t f)
{
    const uint8_t *marks = m->marks + DW_MARK(f, 0);
    uint32_t holder = m->holders[f];

    if (holder > s->processes)
        return 0;
    if (holder != 0 && !(right_of(s, holder - 1, f) & DW_W))
        return 0;
    for (uint32_t p = 0; p < s->processes; p++)
        if (marks[p] != 0 && (marks[p] != 1 || !(right_of(s, p, f) & DW_R)))
            return 0;
    for (uint32_t p = s->processes; p < DW_PROCESSES; p++)
        if (marks[p] != 0)
            return 0;
    return cell_fits(&m->cells[f]);
}

static int store_fits(const dw_setup *s, const dw_store *m)
{
    for (uint32_t f = 0; f < s->files; f++)
        if (!file_fits(s, m, f))
            return 0;
    for (uint32_t f = s->files; f < DW_FILES; f++)
        if (!file_is_blank(m, f))
            return 0;
    return 1;
}

static uint32_t judge(const dw_setup *s, const dw_store *m)
{
    return !accepted(s) ? 15 : !store_fits(s, m) ? 16 : 0;
}

static uint32_t numbers_refusal(const dw_setup *s, uint32_t op, uint32_t p, uint32_t f, uint32_t x)
{
    if (op < DW_READ || op > DW_COPY)
        return 5;
    if (p >= s->processes)
        return 6;
    if (f >= s->files || (op == DW_COPY && x >= s->files))
        return 7;
    if (op != DW_WRITE && op != DW_COPY && x != 0)
        return 8;
    if (op == DW_COPY && x == f)
        return 9;
    return 0;
}

/* ---- Calls. */

static dw_answer answer(uint32_t kind, uint32_t value)
{
    dw_answer a = {kind, value};

    return a;
}

static int free_for(uint32_t holder, uint32_t p)
{
    return holder == 0 || holder == p + 1;
}

static void copy(const dw_setup *s, dw_store *m, uint32_t p, uint32_t f, uint32_t x)
{
    if (right_of(s, p, f) & DW_R && right_of(s, p, x) & DW_W && m->marks[DW_MARK(f, p)] &&
        free_for(m->holders[f], p) && m->holders[x] == p + 1)
        m->cells[x] = m->cells[f];
}

/* A call on a setup and a store that were judged. */
static dw_answer step(const dw_setup *s, dw_store *m, uint32_t op, uint32_t p, uint32_t f, uint32_t x)
{
    uint32_t refusal = numbers_refusal(s, op, p, f, x);
    uint32_t *holder;
    uint8_t *mark;
    int r, w;

    if (refusal != 0)
        return answer(DW_REFUSED, refusal);
    holder = &m->holders[f];
    mark = &m->marks[DW_MARK(f, p)];
    r = right_of(s, p, f) & DW_R;
    w = right_of(s, p, f) & DW_W;
    switch (op) {
    case DW_READ:
        if (r && *mark && free_for(*holder, p) && m->cells[f].written)
            return answer(DW_FIGURE, m->cells[f].figure);
        break;
    case DW_WRITE:
        if (w && *holder == p + 1)
            m->cells[f] = (dw_cell){.figure = x, .written = 1};
        break;
    case DW_LOCK:
        if (w && *holder == 0)
            *holder = p + 1;
        break;
    case DW_UNLOCK:
        if (w && *holder == p + 1)
            *holder = 0;
        break;
    case DW_OPEN:
        if (r && *holder == 0)
            *mark = 1;
        break;
    case DW_CLOSE:
        if (r)
            *mark = 0;
        break;
    case DW_TESTLOCK:
        if (r && w)
            return answer(*holder == p + 1 ? DW_YES : DW_NO, 0);
        break;
    case DW_COPY:
        copy(s, m, p, f, x);
        break;
    }
    return answer(DW_NOTHING, 0);
}

dw_answer peer_call(const dw_setup *setup, dw_store *store, uint32_t op, uint32_t p, uint32_t f, uint32_t x)
{
    uint32_t refusal = judge(setup, store);

    return refusal != 0 ? answer(DW_REFUSED, refusal) : step(setup, store, op, p, f, x);
}

dw_answer peer_run(const dw_setup *setup, dw_store *store, const uint32_t *calls, size_t calls_len,
                   uint32_t *answers, size_t answers_len)
{
    uint32_t refusal = judge(setup, store);
    size_t count = calls_len / DW_CALL_WIDTH;

    if (refusal != 0)
        return answer(DW_REFUSED, refusal);
    if (calls_len % DW_CALL_WIDTH != 0 || count > DW_CALLS)
        return answer(DW_REFUSED, DW_REFUSAL_LENGTH);
    if (answers_len < count * DW_ANSWER_WIDTH)
        return answer(DW_REFUSED, DW_REFUSAL_ROOM);
    for (size_t i = 0; i < count; i++, calls += DW_CALL_WIDTH, answers += DW_ANSWER_WIDTH) {
        dw_answer a = step(setup, store, calls[0], calls[1], calls[2], calls[3]);

        answers[0] = a.kind;
        answers[1] = a.value;
    }
    return answer(DW_NOTHING, (uint32_t)count);
}

/* ---- The route report and the gate report: a breadth-first search back from b, then a walk forward from a. */

/* What one report or grid works with: each desk's first process, and for a route, or around a gate, how many links it
 * stands from b. */
struct search {
    const dw_setup *s;
    uint32_t first[DW_DESKS];
    uint32_t links[DW_DESKS];
};

static void find_firsts(struct search *r)
{
    const dw_setup *s = r->s;

    for (uint32_t d = 0; d < DW_DESKS; d++)
        r->first[d] = s->processes;
    for (uint32_t p = s->processes; p-- > 0;)
        r->first[s->desk_of[p]] = p;
}

/* The lowest file whose class d may write and e may read, or the number of files. */
static uint32_t file_for(const dw_setup *s, uint32_t d, uint32_t e)
{
    for (uint32_t f = 0; f < s->files; f++)
        if (s->rights[d * DW_CLASSES + s->class_of[f]] & DW_W && s->rights[e * DW_CLASSES + s->class_of[f]] & DW_R)
            return f;
    return s->files;
}

static int has_process(const struct search *r, uint32_t d)
{
    return r->first[d] < r->s->processes;
}

static int linked(const struct search *r, uint32_t d, uint32_t e)
{
    return has_process(r, d) && has_process(r, e) && file_for(r->s, d, e) < r->s->files;
}

/* Ends as soon as a is reached: every desk nearer to b is known by then. */
static void search_back(struct search *r, uint32_t a, uint32_t b)
{
    uint32_t queue[DW_DESKS], head = 0, tail = 0;

    for (uint32_t d = 0; d < DW_DESKS; d++)
        r->links[d] = DW_DESKS;
    r->links[b] = 0;
    queue[tail++] = b;
    while (head < tail) {
        uint32_t e = queue[head++];

        for (uint32_t d = 0; d < r->s->desks; d++) {
            if (r->links[d] != DW_DESKS || !linked(r, d, e))
                continue;
            r->links[d] = r->links[e] + 1;
            if (d == a)
                return;
            queue[tail++] = d;
        }
    }
}

/* The lowest desk that has a link from d and stands one link nearer. */
static uint32_t next_desk(const struct search *r, uint32_t d)
{
    uint32_t e = 0;

    while (r->links[e] != r->links[d] - 1 || !linked(r, d, e))
        e++;
    return e;
}

static uint32_t *put_call(uint32_t *at, uint32_t op, uint32_t p, uint32_t f, uint32_t x)
{
    at[0] = op;
    at[1] = p;
    at[2] = f;
    at[3] = x;
    return at + DW_CALL_WIDTH;
}

static void write_list(const struct search *r, uint32_t a, uint32_t b, uint32_t *at)
{
    uint32_t d = next_desk(r, a), f = file_for(r->s, a, d), p = r->first[a];

    at = put_call(at, DW_LOCK, p, f, 0);
    at = put_call(at, DW_WRITE, p, f, 1);
    at = put_call(at, DW_UNLOCK, p, f, 0);
    while (d != b) {
        uint32_t e = next_desk(r, d), g = file_for(r->s, d, e);

        p = r->first[d];
        at = put_call(at, DW_OPEN, p, f, 0);
        at = put_call(at, DW_LOCK, p, g, 0);
        at = put_call(at, DW_COPY, p, f, g);
        at = put_call(at, DW_UNLOCK, p, g, 0);
        d = e;
        f = g;
    }
    at = put_call(at, DW_OPEN, r->first[b], f, 0);
    put_call(at, DW_READ, r->first[b], f, 0);
}

/* Answers how many calls it wrote: 0 where no chain leads from a to b. */
static uint32_t write_route(struct search *r, uint32_t a, uint32_t b, uint32_t *room)
{
    search_back(r, a, b);
    if (r->links[a] == DW_DESKS)
        return 0;
    write_list(r, a, b, room);
    return DW_ROUTE_CALLS(r->links[a]);
}

dw_answer peer_route(const dw_setup *setup, uint32_t a, uint32_t b, uint32_t *room, size_t room_len)
{
    struct search r = {.s = setup};
    uint32_t calls;

    if (!accepted(setup))
        return answer(DW_REFUSED, DW_REFUSAL_SETUP);
    if (a >= setup->desks || b >= setup->desks)
        return answer(DW_REFUSED, DW_REFUSAL_ROUTE_DESK);
    if (a == b)
        return answer(DW_REFUSED, DW_REFUSAL_SAME_DESK);
    if (room_len < DW_ROUTE_NUMBERS)
        return answer(DW_REFUSED, DW_REFUSAL_ROOM);
    find_firsts(&r);
    calls = write_route(&r, a, b, room);
    return answer(calls == 0 ? DW_NO_ROUTE : DW_ROUTE, calls);
}

/* The route report, with the gate desk taken out: it has no process, and so no link. */
dw_answer peer_gate(const dw_setup *setup, uint32_t a, uint32_t b, uint32_t gate, uint32_t *room, size_t room_len)
{
    struct search r = {.s = setup};
    uint32_t calls;

    if (!accepted(setup))
        return answer(DW_REFUSED, DW_REFUSAL_SETUP);
    if (a >= setup->desks || b >= setup->desks || gate >= setup->desks)
        return answer(DW_REFUSED, DW_REFUSAL_ROUTE_DESK);
    if (a == b || a == gate || b == gate)
        return answer(DW_REFUSED, DW_REFUSAL_SAME_DESK);
    if (room_len < DW_ROUTE_NUMBERS)
        return answer(DW_REFUSED, DW_REFUSAL_ROOM);
    find_firsts(&r);
    r.first[gate] = setup->processes;
    calls = write_route(&r, a, b, room);
    return answer(calls == 0 ? DW_GUARDED : DW_UNGUARDED, calls);
}

/* ---- The grid: all links once, as a table, then a breadth-first search forward from each desk over it. */

typedef uint8_t link_table[DW_DESKS][DW_DESKS];

/* 1 if d may write and e may read some class that has a file, else 0. It does not stop at the first, nor inside a class: so
 * the compiler takes all classes at once. */
static uint8_t served(const dw_setup *s, const uint8_t *has_file, uint32_t d, uint32_t e)
{
    const uint8_t *of_d = s->rights + d * DW_CLASSES, *of_e = s->rights + e * DW_CLASSES;
    uint8_t any = 0;

    for (uint32_t t = 0; t < DW_CLASSES; t++)
        any |= has_file[t] & ((of_d[t] & DW_W) != 0) & ((of_e[t] & DW_R) != 0);
    return any;
}

static void find_links(const struct search *r, link_table links)
{
    const dw_setup *s = r->s;
    uint8_t has_file[DW_CLASSES] = {0};

    for (uint32_t f = 0; f < s->files; f++)
        has_file[s->class_of[f]] = 1;
    for (uint32_t d = 0; d < s->desks; d++)
        for (uint32_t e = 0; e < s->desks; e++)
            links[d][e] = has_process(r, d) && has_process(r, e) && served(s, has_file, d, e);
}

/* Fills the row of desk a. A 0 stands for a desk not reached yet. Ends as soon as every desk is reached. */
static void search_from(const link_table links, uint32_t desks, uint32_t a, uint32_t *row)
{
    uint32_t queue[DW_DESKS], head = 0, tail = 0;

    for (uint32_t e = 0; e < desks; e++)
        row[e] = 0;
    queue[tail++] = a;
    while (head < tail && tail < desks) {
        uint32_t d = queue[head++];

        for (uint32_t e = 0; e < desks; e++) {
            if (!links[d][e] || row[e] != 0 || e == a)
                continue;
            row[e] = row[d] + 1;
            queue[tail++] = e;
        }
    }
}

dw_answer peer_grid(const dw_setup *setup, uint32_t *room, size_t room_len)
{
    struct search r = {.s = setup};
    link_table links;

    if (!accepted(setup))
        return answer(DW_REFUSED, DW_REFUSAL_SETUP);
    if (room_len < setup->desks * setup->desks)
        return answer(DW_REFUSED, DW_REFUSAL_ROOM);
    find_firsts(&r);
    find_links(&r, links);
    for (uint32_t a = 0; a < setup->desks; a++)
        search_from(links, setup->desks, a, room + DW_GRID_AT(setup->desks, a, 0));
    return answer(DW_DONE, setup->desks * setup->desks);
}
