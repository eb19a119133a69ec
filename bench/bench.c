/* Times the library against the hand-written peer, on the same calls in the same run, and compares all that they answer.
 *
 * A list of 1,024 mixed calls, of which most go through, is run from a fresh store by each form that the library has. Every
 * run is timed by itself, library and peer by turns, and the medians are compared. Then the stack that one call takes is
 * measured. Routes, gates, a text and grids follow, and stores and gates of any kind, which are compared and not timed. Its
 * exit status is 1 where an answer, a store or a lent room differs. */
#include <stdio.h>
#include <stdlib.h>
#include <string.h>
#include <time.h>

#include "peer.h"

enum { RUNS = 101, ANSWERS = DW_CALLS * DW_ANSWER_WIDTH };

static dw_setup setup;
static dw_store fresh;
static uint32_t calls[DW_CALLS * DW_CALL_WIDTH];

/* ---- The calls. */

static uint32_t state = 20261;

/* Numbers below a bound in no order, the same in each run. */
static uint32_t below(uint32_t bound)
{
    state ^= state << 13;
    state ^= state >> 17;
    state ^= state << 5;
    return (state >> 8) % bound;
}

/* One bit is changed. */
static void damage(void *bytes, uint32_t len)
{
    ((uint8_t *)bytes)[below(len)] ^= (uint8_t)(1u << below(8));
}

/* As large as a setup can be. One right in sixteen is not both. */
static void make_setup(void)
{
    setup.desks = DW_DESKS;
    setup.classes = DW_CLASSES;
    setup.processes = DW_PROCESSES;
    setup.files = DW_FILES;
    for (uint32_t i = 0; i < DW_RIGHTS; i++)
        setup.rights[i] = (uint8_t)(below(16) == 0 ? below(DW_RW) : DW_RW);
    for (uint32_t p = 0; p < DW_PROCESSES; p++)
        setup.desk_of[p] = (uint8_t)below(DW_DESKS);
    for (uint32_t f = 0; f < DW_FILES; f++)
        setup.class_of[f] = (uint8_t)below(DW_CLASSES);
}

/* The first file from f on, around the end, that is locked, or is not; f if there is none. */
static uint32_t file_from(const dw_store *m, uint32_t f, int locked)
{
    for (uint32_t i = 0; i < DW_FILES; i++) {
        uint32_t at = (f + i) % DW_FILES;

        if ((m->holders[at] != 0) == locked)
            return at;
    }
    return f;
}

/* The first process from p on that has the file open; p if there is none. */
static uint32_t reader_from(const dw_store *m, uint32_t f, uint32_t p)
{
    for (uint32_t i = 0; i < DW_PROCESSES; i++)
        if (m->marks[DW_MARK(f, (p + i) % DW_PROCESSES)])
            return (p + i) % DW_PROCESSES;
    return p;
}

/* The first unlocked file from f on that the process has open; f if there is none. */
static uint32_t source_from(const dw_store *m, uint32_t f, uint32_t p)
{
    for (uint32_t i = 0; i < DW_FILES; i++) {
        uint32_t at = (f + i) % DW_FILES;

        if (m->marks[DW_MARK(at, p)] && m->holders[at] == 0)
            return at;
    }
    return f;
}

/* The process that has some locked file, from f on; p if none is locked. */
static uint32_t holder_from(const dw_store *m, uint32_t f, uint32_t p)
{
    uint32_t holder = m->holders[file_from(m, f, 1)];

    return holder != 0 ? holder - 1 : p;
}

/* One figure in four is 0. */
static uint32_t any_figure(void)
{
    return below(4) == 0 ? 0 : below(1000000);
}

/* Any operation, its numbers then picked so that it is likely to go through. */
static void pick_call(const dw_store *m, uint32_t *call)
{
    static const uint8_t mix[] = {DW_READ,  DW_READ,     DW_WRITE, DW_WRITE, DW_LOCK, DW_UNLOCK, DW_OPEN,
                                  DW_CLOSE, DW_TESTLOCK, DW_COPY,  DW_OPEN};
    uint32_t op = mix[below(sizeof mix)], p = below(DW_PROCESSES), f = below(DW_FILES), x = 0;

    switch (op) {
    case DW_WRITE:
    case DW_UNLOCK:
        x = op == DW_WRITE ? any_figure() : 0;
        p = holder_from(m, f, p);
        f = file_from(m, f, 1);
        break;
    case DW_COPY:
        p = holder_from(m, f, p);
        x = file_from(m, f, 1);
        f = source_from(m, f, p);
        break;
    case DW_OPEN:
        p = below(2) ? holder_from(m, f, p) : p;
        f = file_from(m, f, 0);
        break;
    default:
        f = file_from(m, f, 0);
        if (op == DW_READ || op == DW_CLOSE)
            p = reader_from(m, f, p);
    }
    call[0] = op;
    call[1] = p;
    call[2] = f;
    call[3] = x;
}

/* One call in sixteen is of any numbers, refused or not. */
static void any_call(uint32_t *call)
{
    call[0] = below(10);
    call[1] = below(DW_PROCESSES + 2);
    call[2] = below(DW_FILES + 2);
    call[3] = below(3);
}

static int tells(dw_answer a)
{
    return a.kind != DW_NOTHING && a.kind != DW_REFUSED;
}

/* Answers how many calls changed the store or answered more than nothing: so many went through, at the least. */
static int make_calls(void)
{
    static dw_store m, was;
    int went = 0;

    m = fresh;
    for (uint32_t i = 0; i < DW_CALLS; i++) {
        uint32_t *call = calls + i * DW_CALL_WIDTH;
        dw_answer a;

        if (below(16) == 0)
            any_call(call);
        else
            pick_call(&m, call);
        was = m;
        a = peer_call(&setup, &m, call[0], call[1], call[2], call[3]);
        went += tells(a) || memcmp(&m, &was, sizeof m) != 0;
    }
    return went;
}

/* ---- The forms. Each runs the list on a store in place. */

typedef void form(dw_store *m, uint32_t *answers);

static void put(uint32_t *answers, uint32_t i, dw_answer a)
{
    answers[i * DW_ANSWER_WIDTH] = a.kind;
    answers[i * DW_ANSWER_WIDTH + 1] = a.value;
}

static void peer_list(dw_store *m, uint32_t *answers)
{
    peer_run(&setup, m, calls, sizeof calls / sizeof calls[0], answers, ANSWERS);
}

static void peer_calls(dw_store *m, uint32_t *answers)
{
    for (uint32_t i = 0; i < DW_CALLS; i++) {
        const uint32_t *c = calls + i * DW_CALL_WIDTH;

        put(answers, i, peer_call(&setup, m, c[0], c[1], c[2], c[3]));
    }
}

static void value_calls(dw_store *m, uint32_t *answers)
{
    for (uint32_t i = 0; i < DW_CALLS; i++) {
        const uint32_t *c = calls + i * DW_CALL_WIDTH;
        dw_called called = dw_call(setup, *m, c[0], c[1], c[2], c[3]);

        *m = called.store;
        put(answers, i, called.answer);
    }
}

#ifdef HAS_IN_PLACE
static void place_calls(dw_store *m, uint32_t *answers)
{
    for (uint32_t i = 0; i < DW_CALLS; i++) {
        const uint32_t *c = calls + i * DW_CALL_WIDTH;

        put(answers, i, dw_call_in_place(setup, m, c[0], c[1], c[2], c[3]));
    }
}
#endif

#ifdef HAS_RUN
static void value_list(dw_store *m, uint32_t *answers)
{
    *m = dw_run(setup, *m, calls, sizeof calls / sizeof calls[0], answers, ANSWERS).store;
}
#endif

/* ---- The clock. */

static double now(void)
{
    struct timespec t;

    clock_gettime(CLOCK_MONOTONIC, &t);
    return (double)t.tv_sec * 1e6 + (double)t.tv_nsec / 1e3;
}

static int by_size(const void *one, const void *other)
{
    double a = *(const double *)one, b = *(const double *)other;

    return a < b ? -1 : a > b;
}

static double median(double *times)
{
    qsort(times, RUNS, sizeof times[0], by_size);
    return times[RUNS / 2];
}

/* One run from the fresh store: its time in microseconds, with the store and the answers left for comparing. */
static double timed(form *run, dw_store *m, uint32_t *answers)
{
    double began;

    *m = fresh;
    memset(answers, 0xFF, ANSWERS * sizeof answers[0]);
    began = now();
    run(m, answers);
    return now() - began;
}

/* ---- The stack. A form is run on a stack of its own that was painted before; what is still painted was never reached. */

enum { STACK = 1 << 18, PAINT = 0xA5 };

static uint8_t stack[STACK] __attribute__((aligned(64)));
static form *stacked_form;
static dw_store stacked_store;
static uint32_t stacked_answers[ANSWERS];

__attribute__((used)) static void stacked(void)
{
    stacked_form(&stacked_store, stacked_answers);
}

static long stack_of(form *run)
{
    long unused = 0;

    stacked_form = run;
    stacked_store = fresh;
    memset(stack, PAINT, sizeof stack);
    __asm__ volatile("movq %%rsp, %%rbx\n\tmovq %0, %%rsp\n\tcall stacked\n\tmovq %%rbx, %%rsp"
                     :
                     : "r"(stack + STACK)
                     : "rax", "rbx", "rcx", "rdx", "rsi", "rdi", "r8", "r9", "r10", "r11", "xmm0", "xmm1", "xmm2",
                       "xmm3", "xmm4", "xmm5", "xmm6", "xmm7", "xmm8", "xmm9", "xmm10", "xmm11", "xmm12", "xmm13",
                       "xmm14", "xmm15", "memory", "cc");
    while (unused < STACK && stack[unused] == PAINT)
        unused++;
    return STACK - unused;
}

/* ---- The table. */

static int differs;

/* The peer's own row of the same kind is what a form is held to. */
static void measure(const char *name, form *ours, form *peers)
{
    static double our_times[RUNS], peer_times[RUNS];
    static dw_store our_store, peer_store;
    static uint32_t our_answers[ANSWERS], peer_answers[ANSWERS];
    double our_time, peer_time;

    for (int i = 0; i < RUNS; i++) {
        our_times[i] = timed(ours, &our_store, our_answers);
        peer_times[i] = timed(peers, &peer_store, peer_answers);
        differs |= memcmp(our_answers, peer_answers, sizeof our_answers) != 0;
        differs |= memcmp(&our_store, &peer_store, sizeof our_store) != 0;
    }
    our_time = median(our_times);
    peer_time = median(peer_times);
    printf("%-32s %10.1f %10.1f %8.2f %12ld %8ld\n", name, our_time, peer_time, our_time / peer_time, stack_of(ours),
           stack_of(peers));
}

/* ---- Routes, on setups that cost much: as many desks, processes and files as can be. */

enum { REPORTS = 20, NO_GATE = DW_DESKS + 1 };

/* Whether there is a route from desk a to desk b, or, with a gate desk, whether that guards them. */
struct question {
    dw_setup s;
    uint32_t a, b, gate;
};

/* Desk d writes class d, and reads the class before its own: a chain through all desks. The files of each class lie last
 * first, so that most are looked at. */
static void make_line(dw_setup *s)
{
    memset(s, 0, sizeof *s);
    s->desks = DW_DESKS;
    s->classes = DW_CLASSES;
    s->processes = DW_PROCESSES;
    s->files = DW_FILES;
    for (uint32_t d = 0; d < DW_DESKS; d++) {
        s->rights[d * DW_CLASSES + d] = DW_W;
        if (d > 0)
            s->rights[d * DW_CLASSES + d - 1] = DW_R;
    }
    for (uint32_t p = 0; p < DW_PROCESSES; p++)
        s->desk_of[p] = (uint8_t)(DW_DESKS - 1 - p % DW_DESKS);
    for (uint32_t f = 0; f < DW_FILES; f++)
        s->class_of[f] = (uint8_t)(DW_CLASSES - 1 - f % DW_CLASSES);
}

/* The line without its first desk, which has a link to the last at once: the search in C ends there, the report does not. */
static void make_shortcut(dw_setup *s)
{
    make_line(s);
    s->rights[0] = DW_NONE;
    s->rights[DW_CLASSES - 1] = DW_W;
    s->rights[(DW_DESKS - 1) * DW_CLASSES + DW_CLASSES - 1] = DW_RW;
}

static void make_full(dw_setup *s)
{
    make_line(s);
    memset(s->rights, DW_RW, sizeof s->rights);
}

/* The line, with the lowest process of each desk but the last as far back as can be: all before sit at the last desk. */
static void make_late(dw_setup *s)
{
    make_line(s);
    memset(s->desk_of, DW_DESKS - 1, DW_PROCESSES - DW_DESKS);
}

static void make_bare(dw_setup *s)
{
    make_line(s);
    memset(s->rights, DW_NONE, sizeof s->rights);
}

static dw_answer ask(const struct question *q, int ours, uint32_t *room, size_t room_len)
{
    if (q->gate == NO_GATE)
        return ours ? dw_route(q->s, q->a, q->b, room, room_len) : peer_route(&q->s, q->a, q->b, room, room_len);
    return ours ? dw_gate(q->s, q->a, q->b, q->gate, room, room_len)
                : peer_gate(&q->s, q->a, q->b, q->gate, room, room_len);
}

static double report_time(const struct question *q, int ours, uint32_t *room, dw_answer *answer)
{
    double began = now();

    for (int i = 0; i < REPORTS; i++)
        *answer = ask(q, ours, room, DW_ROUTE_NUMBERS);
    return (now() - began) / REPORTS;
}

static void measure_report(const char *name, void make(dw_setup *), uint32_t a, uint32_t b, uint32_t gate)
{
    static double our_times[RUNS], peer_times[RUNS];
    static uint32_t our_room[DW_ROUTE_NUMBERS], peer_room[DW_ROUTE_NUMBERS];
    struct question q = {.a = a, .b = b, .gate = gate};
    double our_time, peer_time;
    dw_answer our, peer;

    make(&q.s);
    memset(our_room, 0xFF, sizeof our_room);
    memset(peer_room, 0xFF, sizeof peer_room);
    for (int i = 0; i < RUNS; i++) {
        our_times[i] = report_time(&q, 1, our_room, &our);
        peer_times[i] = report_time(&q, 0, peer_room, &peer);
        differs |= our.kind != peer.kind || our.value != peer.value;
        differs |= memcmp(our_room, peer_room, sizeof our_room) != 0;
    }
    our_time = median(our_times);
    peer_time = median(peer_times);
    printf("%-32s %10.1f %10.1f %8.2f %9u calls\n", name, our_time, peer_time, our_time / peer_time,
           our.kind == DW_REFUSED ? 0 : our.value);
}

static void measure_routes(void)
{
    measure_report("route, 16 desks in a line", make_line, 0, DW_DESKS - 1, NO_GATE);
    measure_report("the same, lowest processes last", make_late, 0, DW_DESKS - 1, NO_GATE);
    measure_report("no route, back along the line", make_line, DW_DESKS - 1, 0, NO_GATE);
    measure_report("route, all rights set", make_full, 0, DW_DESKS - 1, NO_GATE);
    measure_report("route at once, beside a line", make_shortcut, 0, DW_DESKS - 1, NO_GATE);
}

/* ---- Grids, on the largest setups, by the library, by the peer, and by a report for each two desks, all by turns. */

/* Longer than any grid, since what lies past one is to keep its values. */
enum { GRID_ROOM = DW_GRID_NUMBERS + DW_DESKS, ANY_SETUPS = 1000 };

typedef dw_answer grid(const dw_setup *s, uint32_t *room, size_t room_len);

static dw_answer our_grid(const dw_setup *s, uint32_t *room, size_t room_len)
{
    return dw_grid(*s, room, room_len);
}

/* How many links the route has that a report wrote. */
static uint32_t links_shown(dw_answer report)
{
    return report.kind == DW_ROUTE ? (report.value - DW_ROUTE_CALLS(0)) / (DW_ROUTE_CALLS(1) - DW_ROUTE_CALLS(0)) : 0;
}

/* What a host does without dw_grid. It judges nothing: its setups are sound, and room is always enough. */
static dw_answer reported_grid(const dw_setup *s, uint32_t *room, size_t room_len)
{
    uint32_t list[DW_ROUTE_NUMBERS];
    dw_answer done = {DW_DONE, s->desks * s->desks};

    (void)room_len;
    for (uint32_t a = 0; a < s->desks; a++)
        for (uint32_t b = 0; b < s->desks; b++)
            room[DW_GRID_AT(s->desks, a, b)] = a == b ? 0 : links_shown(dw_route(*s, a, b, list, DW_ROUTE_NUMBERS));
    return done;
}

/* The single reports take so long that once is enough for the clock. */
enum { OURS, PEERS, REPORTED, WAYS };
static const struct {
    grid *fill;
    int times;
} ways[WAYS] = {{our_grid, REPORTS}, {peer_grid, REPORTS}, {reported_grid, 1}};

static uint32_t grids[WAYS][GRID_ROOM];
static dw_answer grid_answers[WAYS];

/* The time of one grid in microseconds, with the answer and the whole room left for comparing. */
static double grid_time(int way, const dw_setup *s, size_t room_len)
{
    double began;

    memset(grids[way], 0xFF, sizeof grids[way]);
    began = now();
    for (int i = 0; i < ways[way].times; i++)
        grid_answers[way] = ways[way].fill(s, grids[way], room_len);
    return (now() - began) / ways[way].times;
}

static void compare_grid(int way)
{
    differs |= memcmp(&grid_answers[way], &grid_answers[OURS], sizeof grid_answers[way]) != 0;
    differs |= memcmp(grids[way], grids[OURS], sizeof grids[way]) != 0;
}

static void measure_grid(const char *name, void make(dw_setup *))
{
    static double times[WAYS][RUNS];
    double medians[WAYS];
    dw_setup s;

    make(&s);
    for (int i = 0; i < RUNS; i++)
        for (int way = 0; way < WAYS; way++) {
            times[way][i] = grid_time(way, &s, GRID_ROOM);
            compare_grid(way);
        }
    for (int way = 0; way < WAYS; way++)
        medians[way] = median(times[way]);
    printf("%-32s %10.1f %10.1f %8.2f %12.1f %8.3f\n", name, medians[OURS], medians[PEERS], medians[OURS] / medians[PEERS],
           medians[REPORTED], medians[OURS] / medians[REPORTED]);
}

/* Any counts, and few rights, so that some desks are many links apart. */
static void make_any(dw_setup *s)
{
    memset(s, 0, sizeof *s);
    s->desks = 1 + below(DW_DESKS);
    s->classes = 1 + below(DW_CLASSES);
    s->processes = 1 + below(DW_PROCESSES);
    s->files = 1 + below(DW_FILES);
    for (uint32_t d = 0; d < s->desks; d++)
        for (uint32_t t = 0; t < s->classes; t++)
            s->rights[d * DW_CLASSES + t] = (uint8_t)(below(4) == 0 ? below(DW_RW + 1) : DW_NONE);
    for (uint32_t p = 0; p < s->processes; p++)
        s->desk_of[p] = (uint8_t)below(s->desks);
    for (uint32_t f = 0; f < s->files; f++)
        s->class_of[f] = (uint8_t)below(s->classes);
}

/* On the largest setups every row is as long as it can be, and nothing is refused. So other setups are compared too, with
 * room that is large, just enough or a number short. One in four has a bit changed, after which most are no setups. */
static void compare_any_grids(void)
{
    for (int i = 0; i < ANY_SETUPS; i++) {
        dw_setup s;
        size_t room_len;

        make_any(&s);
        room_len = i % 2 == 0 ? GRID_ROOM : s.desks * s.desks - below(2);
        if (below(4) == 0)
            damage(&s, sizeof s);
        grid_time(OURS, &s, room_len);
        grid_time(PEERS, &s, room_len);
        compare_grid(PEERS);
    }
}

static void measure_grids(void)
{
    printf("%-32s %10s %10s %8s %12s %8s\n", "", "library", "peer", "ratio", "all reports", "ratio");
    measure_grid("grid, 16 desks in a line", make_line);
    measure_grid("grid, all rights set", make_full);
    measure_grid("grid, no rights", make_bare);
    compare_any_grids();
}

/* ---- Gates, on the routes' setups and two more; then on others, which are compared and not timed. */

enum { ANY_GATES = 4000, MIDDLE = DW_DESKS / 2, RIGHTS_BENT = 16, SELDOM = 16 };

/* The line without its last desk, which has every right: over that desk two links would do. */
static void make_around(dw_setup *s)
{
    make_line(s);
    memset(s->rights + (DW_DESKS - 1) * DW_CLASSES, DW_RW, DW_CLASSES);
}

/* The desks before the middle one have every right on one half of the classes, those after it on the other half, and it
 * alone has rights on both. */
static void make_halves(dw_setup *s)
{
    enum { HALF = DW_CLASSES / 2 };

    make_bare(s);
    for (uint32_t d = 0; d < DW_DESKS; d++) {
        memset(s->rights + d * DW_CLASSES, d <= MIDDLE ? DW_RW : DW_NONE, HALF);
        memset(s->rights + d * DW_CLASSES + HALF, d >= MIDDLE ? DW_RW : DW_NONE, HALF);
    }
}

/* The search ends soonest where the gate stands beside the last desk, latest where it stands beside the first. */
static void measure_gates(void)
{
    measure_report("guarded, beside the first desk", make_line, 0, DW_DESKS - 1, 1);
    measure_report("guarded, midway along the line", make_line, 0, DW_DESKS - 1, MIDDLE);
    measure_report("guarded, beside the last desk", make_line, 0, DW_DESKS - 1, DW_DESKS - 2);
    measure_report("guarded, back along the line", make_line, DW_DESKS - 1, 0, MIDDLE);
    measure_report("guarded, between two halves", make_halves, 0, DW_DESKS - 1, MIDDLE);
    measure_report("not guarded, 15 desks in a line", make_line, 0, DW_DESKS - 2, DW_DESKS - 1);
    measure_report("not guarded, low processes last", make_late, 0, DW_DESKS - 2, DW_DESKS - 1);
    measure_report("not guarded, around a full desk", make_around, 0, DW_DESKS - 2, DW_DESKS - 1);
    measure_report("not guarded, all rights set", make_full, 0, DW_DESKS - 1, MIDDLE);
    measure_report("not guarded, beside a line", make_shortcut, 0, DW_DESKS - 1, MIDDLE);
}

/* The line with a few rights set anew, which shorten it, lead back or break it. */
static void make_bent(dw_setup *s)
{
    make_line(s);
    for (int i = 0; i < RIGHTS_BENT; i++)
        s->rights[below(DW_RIGHTS)] = (uint8_t)below(DW_RW + 1);
}

/* How many guard though there is a route, and how many lists are longer than the route's. */
static int any_guarded, any_longer;

static void compare_gate(const struct question *q, size_t room_len)
{
    uint32_t our_room[DW_ROUTE_NUMBERS], peer_room[DW_ROUTE_NUMBERS], calls;
    dw_answer our, peer;

    memset(our_room, 0xFF, sizeof our_room);
    memset(peer_room, 0xFF, sizeof peer_room);
    our = ask(q, 1, our_room, room_len);
    peer = ask(q, 0, peer_room, room_len);
    differs |= memcmp(&our, &peer, sizeof our) != 0 || memcmp(our_room, peer_room, sizeof our_room) != 0;
    calls = peer_route(&q->s, q->a, q->b, peer_room, DW_ROUTE_NUMBERS).value;
    any_guarded += peer.kind == DW_GUARDED && calls > 0;
    any_longer += peer.kind == DW_UNGUARDED && peer.value > calls;
}

/* A desk of the setup, or now and then perhaps the first number that is none. */
static uint32_t any_desk(const dw_setup *s)
{
    return below(s->desks + (below(SELDOM) == 0));
}

/* A desk that acts on the route from a to b; any desk where there is none. */
static uint32_t desk_on_route(const struct question *q)
{
    uint32_t room[DW_ROUTE_NUMBERS];
    dw_answer route = peer_route(&q->s, q->a, q->b, room, DW_ROUTE_NUMBERS);

    return route.kind == DW_ROUTE ? q->s.desk_of[room[below(route.value) * DW_CALL_WIDTH + 1]] : any_desk(&q->s);
}

/* Desks are equal or none at times, the room is a number short at times, and one setup in eight has a bit changed. In setups
 * of any counts a gate seldom matters, so half of them are bent lines, and half of the gates are drawn from the desks of the
 * route, its ends too. */
static void compare_any_gates(void)
{
    for (int i = 0; i < ANY_GATES; i++) {
        struct question q;

        if (i % 2 == 0)
            make_any(&q.s);
        else
            make_bent(&q.s);
        q.a = any_desk(&q.s);
        q.b = any_desk(&q.s);
        q.gate = below(2) ? desk_on_route(&q) : any_desk(&q.s);
        if (below(8) == 0)
            damage(&q.s, sizeof q.s);
        compare_gate(&q, DW_ROUTE_NUMBERS - (below(8) == 0));
    }
}

/* ---- Stores. The list starts from a fresh store of the largest setup, so that each store that it meets fits. Here others
 * are compared, on setups of any counts. */

enum { ANY_STORES = 4000 };

/* Of these calls, how many are known to have gone through, and how many met a store that does not fit. */
static int any_went, any_unfit;

/* In use: of the files some are unwritten and some written, with 0 too, some locked and some open. */
static void make_any_store(const dw_setup *s, dw_store *m)
{
    memset(m, 0, sizeof *m);
    for (uint32_t f = 0; f < s->files; f++) {
        m->cells[f].written = below(2);
        m->cells[f].figure = m->cells[f].written ? any_figure() : 0;
        for (uint32_t p = 0; p < s->processes; p++) {
            uint8_t right = s->rights[s->desk_of[p] * DW_CLASSES + s->class_of[f]];

            m->holders[f] = right & DW_W && below(8) == 0 ? p + 1 : m->holders[f];
            m->marks[DW_MARK(f, p)] = (uint8_t)(right & DW_R ? below(2) : 0);
        }
    }
}

/* One call on one store. */
static void compare_call(const dw_setup *s, const dw_store *m, const uint32_t *c)
{
    dw_called our = dw_call(*s, *m, c[0], c[1], c[2], c[3]);
    dw_store peer_store = *m;
    dw_answer peer = peer_call(s, &peer_store, c[0], c[1], c[2], c[3]);

    differs |= memcmp(&our.answer, &peer, sizeof peer) != 0;
    differs |= memcmp(&our.store, &peer_store, sizeof peer_store) != 0;
    any_went += tells(peer) || memcmp(m, &peer_store, sizeof peer_store) != 0;
    any_unfit += peer.kind == DW_REFUSED && peer.value == DW_REFUSAL_STORE;
}

/* Each as it is, with a bit changed anywhere, and with one changed among its cells. Every second call has a process and a
 * file that exist. */
static void compare_any_stores(void)
{
    for (int i = 0; i < ANY_STORES; i++) {
        uint32_t call[DW_CALL_WIDTH];
        dw_store m, damaged;
        dw_setup s;

        make_any(&s);
        make_any_store(&s, &m);
        pick_call(&m, call);
        if (i % 2 != 0) {
            call[1] %= s.processes;
            call[2] %= s.files;
        }
        compare_call(&s, &m, call);
        damaged = m;
        damage(&damaged, sizeof damaged);
        compare_call(&s, &damaged, call);
        damage(m.cells, sizeof m.cells);
        compare_call(&s, &m, call);
    }
}

/* ---- Texts: as large as the program takes, but for a few bytes. */

enum { INPUT = 32768, READINGS = 5, DAMAGES = 1000, DIGITS = 10, LONG_CALL = 39, SHORT_CALL = 15 };

static uint8_t text[INPUT];
static size_t text_len;

static void put_bytes(const char *bytes)
{
    while (*bytes != 0)
        text[text_len++] = (uint8_t)*bytes++;
}

static void put_field(uint32_t n, char mark)
{
    char digits[DIGITS + 1];
    int at = DIGITS;

    digits[at] = 0;
    do
        digits[--at] = (char)('0' + n % 10);
    while ((n /= 10) != 0);
    put_bytes(digits + at);
    text[text_len++] = (uint8_t)mark;
}

/* Every right set, and as many processes and files as can be. */
static void put_setup_lines(void)
{
    put_bytes("store\t1\t");
    put_field(DW_DESKS, '\t');
    put_field(DW_CLASSES, '\t');
    put_field(DW_PROCESSES, '\t');
    put_field(DW_FILES, '\n');
    for (uint32_t i = 0; i < DW_RIGHTS; i++) {
        put_bytes("access\t");
        put_field(i / DW_CLASSES, '\t');
        put_field(i % DW_CLASSES, '\t');
        put_bytes(i % 3 == 0 ? "R\n" : i % 3 == 1 ? "W\n" : "RW\n");
    }
    for (uint32_t p = 0; p < DW_PROCESSES; p++) {
        put_bytes("process\t");
        put_field(p, '\t');
        put_field(p % DW_DESKS, '\n');
    }
    for (uint32_t f = 0; f < DW_FILES; f++) {
        put_bytes("file\t");
        put_field(f, '\t');
        put_field(f % DW_CLASSES, '\n');
    }
}

/* A call of any word, with numbers from a base on. */
static void put_call_line(uint32_t base)
{
    static const char *const words[] = {"read\t", "write\t", "lock\t", "unlock\t", "open\t", "close\t", "testlock\t", "copy\t"};
    uint32_t op = 1 + below(DW_COPY);

    put_bytes(words[op - 1]);
    put_field(base + below(100), '\t');
    if (op == DW_WRITE || op == DW_COPY)
        put_field(base + below(100), '\t');
    put_field(base + below(100), '\n');
}

/* Answers the length of the setup's lines. */
static size_t make_text(void)
{
    size_t setup_len;

    put_setup_lines();
    setup_len = text_len;
    put_bytes("calls\t1\n");
    /* Long numbers, as far as every call after it still has room for short ones. */
    for (uint32_t i = 0; i < DW_CALLS; i++)
        put_call_line(INPUT - text_len >= LONG_CALL + (DW_CALLS - 1 - i) * SHORT_CALL ? 4294967000u : 0);
    return setup_len;
}

typedef dw_text reader(const uint8_t *text, size_t text_len, uint32_t *room, size_t room_len);

static double reading_time(reader *read, uint32_t *room, dw_text *answer)
{
    double began = now();

    for (int i = 0; i < READINGS; i++)
        *answer = read(text, text_len, room, DW_CALLS * DW_CALL_WIDTH);
    return (now() - began) / READINGS;
}

static uint32_t our_room[DW_CALLS * DW_CALL_WIDTH], peer_room[DW_CALLS * DW_CALL_WIDTH];

/* Both readers on the first len bytes, with rooms that no call was in. */
static void compare_readers(size_t len)
{
    dw_text our, peer;

    memset(our_room, 0xFF, sizeof our_room);
    memset(peer_room, 0xFF, sizeof peer_room);
    our = dw_read_with_calls(text, len, our_room, DW_CALLS * DW_CALL_WIDTH);
    peer = peer_read_with_calls(text, len, peer_room, DW_CALLS * DW_CALL_WIDTH);
    differs |= memcmp(&our, &peer, sizeof our) != 0 || memcmp(our_room, peer_room, sizeof our_room) != 0;
}

/* One byte changed, half of them among the setup's lines, and then the text cut off there. */
static void compare_damaged(size_t setup_len)
{
    static const uint8_t bytes[] = {'\t', '\n', '0', '1', '9', 'R', 'x', 0};

    for (int i = 0; i < DAMAGES; i++) {
        size_t at = below((uint32_t)(i % 2 == 0 ? setup_len : text_len));
        uint8_t was = text[at];

        text[at] = bytes[below(sizeof bytes)];
        compare_readers(text_len);
        text[at] = was;
        compare_readers(at);
    }
}

static void measure_text(void)
{
    static double our_times[RUNS], peer_times[RUNS];
    double our_time, peer_time;
    dw_text our, peer;

    compare_damaged(make_text());
    for (int i = 0; i < RUNS; i++) {
        our_times[i] = reading_time(dw_read_with_calls, our_room, &our);
        peer_times[i] = reading_time(peer_read_with_calls, peer_room, &peer);
        differs |= memcmp(&our, &peer, sizeof our) != 0 || our.answer.value != DW_CALLS;
        differs |= memcmp(our_room, peer_room, sizeof our_room) != 0;
    }
    our_time = median(our_times);
    peer_time = median(peer_times);
    printf("%-32s %10.1f %10.1f %8.2f %9lu bytes\n", "(c) text, dw_read_with_calls", our_time, peer_time,
           our_time / peer_time, (unsigned long)text_len);
}

/* What is said at the end, and the exit status. Calls that do nothing would compare nothing, and so would idle gates. */
static int tell_end(int went)
{
    printf("%d stores of any kind: at least %d calls on them went through, %d met one that does not fit\n", 3 * ANY_STORES,
           any_went, any_unfit);
    printf("%d gates of any kind: %d guard though there is a route, %d make it longer\n", ANY_GATES, any_guarded,
           any_longer);
    if (went * 2 < DW_CALLS || any_went * 10 < ANY_STORES || any_unfit < ANY_STORES) {
        printf("FAILED: too few of the calls go through, or too few of the stores do not fit\n");
        return 1;
    }
    if (any_guarded * 40 < ANY_GATES || any_longer * 80 < ANY_GATES) {
        printf("FAILED: too few of the gates guard, or too few make a route longer\n");
        return 1;
    }
    printf(differs ? "FAILED: an answer, a store or a room differs\n" : "every answer, store and room is the same\n");
    return differs;
}

int main(void)
{
    int went;

    make_setup();
    went = make_calls();
    printf("%d calls, at least %d of which go through; the median of %d runs in microseconds, and bytes of stack\n",
           DW_CALLS, went, RUNS);
    printf("%-32s %10s %10s %8s %12s %8s\n", "", "library", "peer", "ratio", "stack", "peer's");
#ifdef HAS_RUN
    measure("(a) one list, dw_run", value_list, peer_list);
#else
    (void)peer_list;
    printf("%-32s not in the library yet\n", "(a) one list, dw_run");
#endif
#ifdef HAS_IN_PLACE
    measure("(b) calls by dw_call_in_place", place_calls, peer_calls);
#else
    printf("%-32s not in the library yet\n", "(b) calls by dw_call_in_place");
#endif
    measure("    calls by dw_call, by value", value_calls, peer_calls);
    measure_routes();
    measure_gates();
    measure_text();
    measure_grids();
    compare_any_stores();
    compare_any_gates();
    return tell_end(went);
}
