/* A host in C: accepts a setup, keeps one store in its memory, and lends it for eleven calls. The first two have desk 2
 * read a file before anything was written. The next eight carry a figure from desk 0 over desk 1 to desk 2, which has no
 * right on the file that desk 0 writes. The last is refused. Then it asks for routes between the desks; whether all that
 * goes from desk 0, the Scorer, to desk 2, the Buyers, passes desk 1, Release, and whether it still does with one right
 * too many; and for the number of links from every desk to every desk at once.
 *
 * bin/host-example builds and runs it. With a C compiler on x86-64 Linux, after `rt lib` in crates/dirgewater:
 *     cc -Iinclude examples/host.c crates/dirgewater/out/libdirgewater.a -o host && ./host
 */
#include <stdio.h>

#include "dirgewater.h"

enum { SCORER, RELEASE, BUYERS };

static const char *const desks[] = {"Scorer", "Release", "Buyers"};

/* Three desks, two classes, three processes, two files. Process n sits at desk n; file n has class n. */
static const uint8_t rights[] = {
    DW_W,    DW_NONE, /* desk 0 writes class 0 */
    DW_R,    DW_W,    /* desk 1 reads class 0 and writes class 1 */
    DW_NONE, DW_R,    /* desk 2 reads class 1 */
};
static const uint8_t desk_of[] = {0, 1, 2};
static const uint8_t class_of[] = {0, 1};

static const struct call {
    const char *name;
    uint32_t op, p, f, x;
} calls[] = {
    {"open", DW_OPEN, 2, 1, 0},
    {"read", DW_READ, 2, 1, 0}, /* nothing; it would be figure 0 had a 0 been written */
    {"lock", DW_LOCK, 0, 0, 0},
    {"write", DW_WRITE, 0, 0, 1},
    {"unlock", DW_UNLOCK, 0, 0, 0},
    {"open", DW_OPEN, 1, 0, 0},
    {"lock", DW_LOCK, 1, 1, 0},
    {"copy", DW_COPY, 1, 0, 1},
    {"unlock", DW_UNLOCK, 1, 1, 0},
    {"read", DW_READ, 2, 1, 0},
};

/* The one store of this host, which it lends for each call. */
static dw_store store;

static void print_answer(const char *name, dw_answer answer)
{
    static const char *const kinds[] = {"nothing", "figure", "yes", "no", "refused"};

    printf("%s\t%s", name, kinds[answer.kind]);
    if (answer.kind == DW_FIGURE || answer.kind == DW_REFUSED)
        printf("\t%u", answer.value);
    printf("\n");
}

/* A host that looks into its store asks the written mark first: the figure of an unwritten file is 0 too. */
static void print_file(uint32_t f)
{
    if (store.cells[f].written)
        printf("file %u holds\t%u\n", f, store.cells[f].figure);
    else
        printf("file %u holds\tnothing\n", f);
}

static void print_route(dw_setup setup, uint32_t a, uint32_t b)
{
    static uint32_t room[DW_ROUTE_NUMBERS];
    dw_answer answer = dw_route(setup, a, b, room, DW_ROUTE_NUMBERS);

    if (answer.kind == DW_ROUTE)
        printf("route\t%u\t%u\t%u calls\n", a, b, answer.value);
    else if (answer.kind == DW_NO_ROUTE)
        printf("route\t%u\t%u\tnone\n", a, b);
    else
        printf("route\t%u\t%u\trefused\t%u\n", a, b, answer.value);
}

/* Where the gate does not guard, the room holds a list that shows it, with no call of the gate desk. */
static void print_gate(dw_setup setup, uint32_t a, uint32_t b, uint32_t gate)
{
    static uint32_t room[DW_ROUTE_NUMBERS];
    dw_answer answer = dw_gate(setup, a, b, gate, room, DW_ROUTE_NUMBERS);

    printf("from %s to %s, gate %s", desks[a], desks[b], desks[gate]);
    if (answer.kind == DW_GUARDED)
        printf("\tguarded\n");
    else if (answer.kind == DW_UNGUARDED)
        printf("\tunguarded\t%u calls\n", answer.value);
    else
        printf("\trefused\t%u\n", answer.value);
}

/* The second time the Scorer may also write class 1, which the Buyers read. A setup may be altered in place: every function
 * judges the one that it is handed. */
static void print_gates(dw_setup setup)
{
    print_gate(setup, SCORER, BUYERS, RELEASE);
    setup.rights[SCORER * DW_CLASSES + 1] = DW_W;
    print_gate(setup, SCORER, BUYERS, RELEASE);
}

/* A row for each desk that is heard; 0 stands for no route and for the desk itself. */
static void print_grid(dw_setup setup)
{
    static uint32_t room[DW_GRID_NUMBERS];
    dw_answer answer = dw_grid(setup, room, DW_GRID_NUMBERS);

    if (answer.kind != DW_DONE) {
        printf("links\trefused\t%u\n", answer.value);
        return;
    }
    for (uint32_t a = 0; a < setup.desks; a++) {
        printf("links from desk %u", a);
        for (uint32_t b = 0; b < setup.desks; b++)
            printf("\t%u", room[DW_GRID_AT(setup.desks, a, b)]);
        printf("\n");
    }
}

int main(void)
{
    dw_given_setup accepted = dw_accept(3, 2, 3, 2, rights, sizeof rights, desk_of, sizeof desk_of,
                                        class_of, sizeof class_of);
    if (accepted.refusal != 0) {
        printf("setup refused\t%u\n", accepted.refusal);
        return 1;
    }
    dw_given_store fresh = dw_fresh(accepted.setup);
    if (fresh.refusal != 0) {
        printf("store refused\t%u\n", fresh.refusal);
        return 1;
    }
    store = fresh.store;
    print_file(1);
    for (size_t i = 0; i < sizeof calls / sizeof calls[0]; i++) {
        const struct call *c = &calls[i];
        print_answer(c->name, dw_call_in_place(accepted.setup, &store, c->op, c->p, c->f, c->x));
    }
    /* No process 3 is in the setup: the call is refused, and the store stays as it was. */
    print_answer("read", dw_call_in_place(accepted.setup, &store, DW_READ, 3, 1, 0));
    print_file(1);
    print_route(accepted.setup, 0, 2);
    print_route(accepted.setup, 2, 0);
    print_route(accepted.setup, 1, 1);
    print_gates(accepted.setup);
    print_grid(accepted.setup);
    return 0;
}
