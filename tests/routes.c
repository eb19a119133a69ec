/* What the route report, the grid and the gate report say of many setups: the number of links from one desk to another.
 *
 * Standard input has setups as numbers: the four counts, the rights row by desk, the desk of each process, the class of
 * each file; then how many desks are asked about as gates, and which. Each setup gives three lines of output, the report's,
 * the grid's and the gate's: for each desk, and then each other desk, the links between them, 0 for no route, -1 where it
 * tells neither. The grid's line has each desk with itself too. The gate's line has the links around each gate in turn, over
 * the desks other than the gate, and 0 where it guards. */
#include <stdio.h>

#include "dirgewater.h"

/* Reads as many numbers as are asked for; one that is no byte would reach the library as another. */
static int read_bytes(uint8_t *bytes, uint32_t count)
{
    unsigned number;

    for (uint32_t i = 0; i < count; i++) {
        if (scanf("%u", &number) != 1)
            return 0;
        bytes[i] = (uint8_t)number;
        if (bytes[i] != number)
            return 0;
    }
    return 1;
}

/* Reads what follows the number of desks, and has it accepted. */
static int read_setup(uint32_t desks, dw_setup *setup)
{
    uint8_t rights[DW_RIGHTS], desk_of[DW_PROCESSES], class_of[DW_FILES];
    unsigned classes, processes, files;
    dw_given_setup given;

    if (scanf("%u %u %u", &classes, &processes, &files) != 3)
        return 0;
    if (desks > DW_DESKS || classes > DW_CLASSES || processes > DW_PROCESSES || files > DW_FILES)
        return 0;
    if (!read_bytes(rights, desks * classes) || !read_bytes(desk_of, processes) || !read_bytes(class_of, files))
        return 0;
    given = dw_accept(desks, classes, processes, files, rights, desks * classes, desk_of, processes, class_of, files);
    *setup = given.setup;
    return given.refusal == 0;
}

static int read_gates(uint8_t *gates, uint32_t *count)
{
    unsigned number;

    if (scanf("%u", &number) != 1 || number > DW_DESKS)
        return 0;
    *count = number;
    return read_bytes(gates, number);
}

/* The links of the list that was written, if the answer is of the one kind; 0 if it is of the other, where none was. */
static int links(dw_answer said, uint32_t written, uint32_t none)
{
    if (said.kind == none && said.value == 0)
        return 0;
    for (int k = 1; said.kind == written && k < DW_DESKS; k++)
        if (said.value == DW_ROUTE_CALLS((uint32_t)k))
            return k;
    return -1;
}

static void print_report(dw_setup setup)
{
    uint32_t room[DW_ROUTE_NUMBERS];

    for (uint32_t from = 0; from < setup.desks; from++)
        for (uint32_t to = 0; to < setup.desks; to++)
            if (from != to)
                printf("%d ", links(dw_route(setup, from, to, room, DW_ROUTE_NUMBERS), DW_ROUTE, DW_NO_ROUTE));
    printf("\n");
}

/* The room starts with numbers that no chain has, so that one left out is seen. */
static void print_grid(dw_setup setup)
{
    uint32_t room[DW_GRID_NUMBERS], count = setup.desks * setup.desks;
    dw_answer said;

    for (uint32_t i = 0; i < count; i++)
        room[i] = DW_DESKS;
    said = dw_grid(setup, room, count);
    for (uint32_t from = 0; from < setup.desks; from++)
        for (uint32_t to = 0; to < setup.desks; to++) {
            uint32_t k = room[DW_GRID_AT(setup.desks, from, to)];

            printf("%d ", said.kind == DW_DONE && said.value == count && k < DW_DESKS ? (int)k : -1);
        }
    printf("\n");
}

static void print_gate(dw_setup setup, uint32_t gate)
{
    uint32_t room[DW_ROUTE_NUMBERS];

    for (uint32_t from = 0; from < setup.desks; from++)
        for (uint32_t to = 0; to < setup.desks; to++)
            if (from != to && from != gate && to != gate)
                printf("%d ", links(dw_gate(setup, from, to, gate, room, DW_ROUTE_NUMBERS), DW_UNGUARDED, DW_GUARDED));
}

static void print_gates(dw_setup setup, const uint8_t *gates, uint32_t count)
{
    for (uint32_t i = 0; i < count; i++)
        print_gate(setup, gates[i]);
    printf("\n");
}

int main(void)
{
    uint8_t gates[DW_DESKS];
    uint32_t count;
    dw_setup setup;
    unsigned desks;

    while (scanf("%u", &desks) == 1) {
        if (!read_setup(desks, &setup) || !read_gates(gates, &count)) {
            printf("no setup\n");
            return 1;
        }
        print_report(setup);
        print_grid(setup);
        print_gates(setup, gates, count);
    }
    return 0;
}
