/* Dirgewater for C: a proved store of sheets, as the static library libdirgewater.a.
 *
 * A setup fixes desks, classes, processes, files, and what each desk may do with each class. A store
 * holds, for each file, who has it locked, who has it open, and a cell: one figure, and whether it was
 * written. A host accepts a setup, makes a fresh store for it, keeps that store in its own
 * memory, and lends it for each call.
 *
 * What is promised. Each function below is proved to give exactly what its comment says, refusals
 * too, and to end, for every value of every number and of every struct. That the structs of this header
 * lie in memory as the library has them is tested, not proved. A setup or a store with any
 * bytes in it may be handed in: it is judged first, and refused with 15 or 16 where it is unsound.
 *
 * Refusals. What cannot be done is refused with a number, DW_REFUSAL_*; each function's comment names those
 * that it gives, in their order. dw_accept and dw_fresh tell a refusal in `refusal`, and dw_judge as the number
 * that it hands back, which is else 0; every other function tells it as an answer of the kind DW_REFUSED with
 * the number as its value. A refused function changes nothing: a store comes back, or lies there, as it was,
 * and nothing is written to what was lent.
 *
 * What is asked in return, of pointers alone, since nothing can judge them:
 *   - no pointer is null, not even beside a length of 0;
 *   - it points at as many entries as its length says (a dw_store * at one store), aligned as its
 *     type asks, and no other thread writes there during the call;
 *   - nothing that a function writes behind a pointer overlaps anything else that it was lent, and
 *     no other thread reads it during the call.
 *
 * No function keeps a pointer, allocates, prints, or has state of its own. So any number of threads
 * may call at once, each on a store of its own. Structs by value lie on the stack: bench/run prints how
 * much of it each form of a call takes.
 *
 * The archive is for x86-64 Linux, on a processor of level x86-64-v2 or above (SSE4.2). It asks for nothing but C's memcpy
 * and memset.
 */
#ifndef DIRGEWATER_H
#define DIRGEWATER_H

/* A compiler that brings no headers has these types built in. */
#if defined(__has_include)
#if !__has_include(<stdint.h>) || !__has_include(<stddef.h>)
#define DW_NO_HEADERS
#endif
#endif
#ifdef DW_NO_HEADERS
typedef __UINT8_TYPE__ uint8_t;
typedef __UINT32_TYPE__ uint32_t;
typedef __SIZE_TYPE__ size_t;
#undef DW_NO_HEADERS
#else
#include <stddef.h>
#include <stdint.h>
#endif

#ifdef __cplusplus
extern "C" {
#endif

/* The version of this header. It goes up when a struct, a function or a meaning changes; a library is built with the
 * header that it comes with. */
#define DW_VERSION 4

/* ---- Sizes: the most of each thing. There is at least one of each, but a list of calls may be empty. */

#define DW_DESKS 16
#define DW_CLASSES 16
#define DW_PROCESSES 64
#define DW_FILES 32
#define DW_CALLS 1024

/* Rights of a setup: one for each desk and class, whatever the counts are. */
#define DW_RIGHTS (DW_DESKS * DW_CLASSES)

/* Open marks of a store: one for each file and process, whatever the counts are, and where each lies. */
#define DW_MARKS (DW_FILES * DW_PROCESSES)
#define DW_MARK(f, p) ((f) * DW_PROCESSES + (p))

/* A call in a list is four numbers, its answer two. */
#define DW_CALL_WIDTH 4
#define DW_ANSWER_WIDTH 2

/* Room for the calls of every text. */
#define DW_CALL_NUMBERS (DW_CALLS * DW_CALL_WIDTH)

/* A route over k links is shown by 4k + 1 calls, and a chain needs at most one link less than there are desks. So this is room for
 * every list: 61 calls, 244 numbers. */
#define DW_ROUTE_CALLS(links) (4 * (links) + 1)
#define DW_ROUTE_NUMBERS (DW_ROUTE_CALLS(DW_DESKS - 1) * DW_CALL_WIDTH)

/* A grid has a number for each desk a that may be heard and each desk b that may hear. DW_GRID_AT says where it lies, by the
 * setup's own number of desks; DW_GRID_NUMBERS is room for every grid. */
#define DW_GRID_AT(desks, a, b) ((a) * (desks) + (b))
#define DW_GRID_NUMBERS (DW_DESKS * DW_DESKS)

/* ---- Rights, calls, answers. */

/* A right is one of these. */
#define DW_NONE 0
#define DW_R 1
#define DW_W 2
#define DW_RW 3

/* A call is an operation, a process p, a file f and an extra number x. R and W are those of p's desk
 * on the file's class. A call goes through when what stands after its name holds; otherwise the store
 * stays as it is, and the answer is DW_NOTHING. */
#define DW_READ 1     /* R; p has f open; f is unlocked or locked by p: answers the figure, or
                         DW_NOTHING where f is unwritten */
#define DW_WRITE 2    /* W; f is locked by p: the figure of f becomes x, and f is written, with an x of 0 too */
#define DW_LOCK 3     /* W; f is unlocked: f is locked by p */
#define DW_UNLOCK 4   /* W; f is locked by p: f is unlocked */
#define DW_OPEN 5     /* R; f is unlocked: p has f open */
#define DW_CLOSE 6    /* R; p has f open: p no longer has it open */
#define DW_TESTLOCK 7 /* R and W: answers yes if f is locked by p, else no */
#define DW_COPY 8     /* R on f; W on file x; p has f open; f is unlocked or locked by p; x is locked
                         by p: the cell of x becomes that of f, so x is unwritten where f is */

/* The kind of an answer. The operations other than READ and TESTLOCK answer DW_NOTHING whether or not
 * they went through. */
#define DW_NOTHING 0 /* value 0 */
#define DW_FIGURE 1  /* value: the figure */
#define DW_YES 2     /* value 0 */
#define DW_NO 3      /* value 0 */
#define DW_REFUSED 4 /* value: the refusal's number */

/* What becomes of a list, of a text or of a grid, as a kind; DW_REFUSED is one too. It is no DW_NOTHING: its value is a count. */
#define DW_DONE 0 /* value: the number of calls run, or read, or of the grid's numbers written */

/* What the route report answers, as a kind; DW_REFUSED is one too. */
#define DW_NO_ROUTE 0 /* value 0 */
#define DW_ROUTE 1    /* value: the number of calls written */

/* What the gate report answers, as a kind; DW_REFUSED is one too. */
#define DW_GUARDED 0   /* value 0 */
#define DW_UNGUARDED 1 /* value: the number of calls written, which go around the gate desk */

/* ---- Refusals. Each is given exactly where its words hold and none earlier in the function's order does. */

#define DW_REFUSAL_COUNT 1        /* a setup count lies outside its sizes */
#define DW_REFUSAL_RIGHT 2        /* a right is above 3 */
#define DW_REFUSAL_DESK 3         /* a desk number in a setup is the number of desks or more */
#define DW_REFUSAL_CLASS 4        /* a class number in a setup is the number of classes or more */
#define DW_REFUSAL_OPERATION 5    /* the operation is not 1 to 8 */
#define DW_REFUSAL_PROCESS 6      /* p is the number of processes or more */
#define DW_REFUSAL_FILE 7         /* f is the number of files or more, or x is, for COPY */
#define DW_REFUSAL_EXTRA 8        /* x is not 0, for the operations other than WRITE and COPY */
#define DW_REFUSAL_COPY 9         /* COPY with x equal to f */
#define DW_REFUSAL_LENGTH 10      /* the lengths of a setup's runs do not match its counts; or a list's length is
                                     not a multiple of DW_CALL_WIDTH, or is above DW_CALL_NUMBERS */
#define DW_REFUSAL_ROOM 11        /* room for answers shorter than two numbers a call; or room for a route, or for a
                                     gate, below DW_ROUTE_NUMBERS; or room for the calls of a text below DW_CALL_NUMBERS; or room
                                     for a grid shorter than the number of desks times itself */
#define DW_REFUSAL_ROUTE_DESK 12  /* a route desk, or one of a gate's three desks, is the number of desks or more */
#define DW_REFUSAL_SAME_DESK 13   /* the two route desks are equal, or two of a gate's three desks are */
#define DW_REFUSAL_LINE 14        /* a text breaks the line rules */
#define DW_REFUSAL_SETUP 15       /* a setup that could not have been accepted */
#define DW_REFUSAL_STORE 16       /* a store that does not fit its setup */

/* ---- Structs. Fields lie in this order with nothing between them; every number is in the machine's order. */

/* A setup, as dw_accept makes it. Every entry past the counts is 0. */
typedef struct dw_setup {
    uint32_t desks;
    uint32_t classes;
    uint32_t processes;
    uint32_t files;
    uint8_t rights[DW_RIGHTS];      /* of desk d on class t, at d * DW_CLASSES + t */
    uint8_t desk_of[DW_PROCESSES];  /* the desk that each process sits at */
    uint8_t class_of[DW_FILES];     /* the class of each file */
} dw_setup;                         /* 368 bytes */

/* What a file holds. A file is unwritten at first, and again after COPY from an unwritten file; WRITE, and COPY from a
 * written file, make it written. A written 0 is a figure like any other. */
typedef struct dw_cell {
    uint32_t figure;                /* 0 in an unwritten file */
    uint32_t written;               /* 1 in a written file, 0 in an unwritten one */
} dw_cell;                          /* 8 bytes */

/* A store fits its setup when each locked file is held by an existing process whose desk has W on the
 * file's class, each process that has a file open exists and its desk has R on that class, open marks
 * are 0 or 1, each file's written mark is 0 or 1 and an unwritten file's figure is 0, and all that lies
 * past the files is 0. Every call keeps a store fitting. Two stores can be compared byte by byte. */
typedef struct dw_store {
    uint32_t holders[DW_FILES];     /* 0 for unlocked, else the process that has the file locked, plus one */
    dw_cell cells[DW_FILES];        /* what each file holds */
    uint8_t marks[DW_MARKS];        /* 1 where process p has file f open, else 0, at DW_MARK(f, p) */
} dw_store;                         /* 2432 bytes */

typedef struct dw_given_setup {
    uint32_t refusal;               /* 0 where a setup is given */
    dw_setup setup;                 /* else all of it is 0, which no function takes for a setup */
} dw_given_setup;                   /* 372 bytes */

/* Where no store is given, one lies there that fits no setup: nothing locked, nothing written, all open marks 2. */
typedef struct dw_given_store {
    uint32_t refusal;               /* 0 where a store is given */
    dw_store store;
} dw_given_store;                   /* 2436 bytes */

typedef struct dw_answer {
    uint32_t kind;                  /* DW_NOTHING to DW_REFUSED */
    uint32_t value;
} dw_answer;                        /* 8 bytes */

/* One call's answer, and the next store. */
typedef struct dw_called {
    dw_answer answer;
    dw_store store;
} dw_called;                        /* 2440 bytes */

/* What became of a list as a whole, and the store after it. */
typedef struct dw_listed {
    dw_answer answer;               /* DW_DONE and the number of calls run; or DW_REFUSED and the number */
    dw_store store;
} dw_listed;                        /* 2440 bytes */

/* What became of a text, and the setup that was read. The offset of a refusal is that of the faulty line's first byte, for a
 * missing line the text's length, and 0 for too little room. */
typedef struct dw_text {
    dw_answer answer;               /* DW_DONE and the number of calls read; or DW_REFUSED and the number */
    size_t offset;                  /* where the text is refused; 0 where it is not */
    dw_setup setup;                 /* where the text is refused, all of it is 0 */
} dw_text;                          /* 384 bytes */

/* ---- Functions. A length counts entries, not bytes. */

/* The setup that four counts and three runs of bytes give. The runs have desks * classes rights, row
 * by desk; the desk of each process; the class of each file. They are only read, and may overlap each
 * other. Refusals, in this order: 1, 10, 2, 3, 4. */
dw_given_setup dw_accept(uint32_t desks, uint32_t classes, uint32_t processes, uint32_t files,
                         const uint8_t *rights, size_t rights_len,
                         const uint8_t *desk_of, size_t desk_of_len,
                         const uint8_t *class_of, size_t class_of_len);

/* A fresh store: nothing locked, nothing open, nothing written. Refusal: 15. */
dw_given_store dw_fresh(dw_setup setup);

/* 0 where the setup could have been accepted and the store fits it; else 15 or 16, in this order. */
uint32_t dw_judge(dw_setup setup, dw_store store);

/* One call on the store that lies behind the pointer: the answer is handed back, and the next store
 * lies there. A refused call, and one that does not go through, leaves the store as it was.
 * Refusals, in this order: 15, 16, 5, 6, 7, 8, 9. */
dw_answer dw_call_in_place(dw_setup setup, dw_store *store, uint32_t op, uint32_t p, uint32_t f, uint32_t x);

/* The same call on a store by value, with the next store handed back: the same answer, the same next
 * store, the same refusals. Use it where the old store is still wanted; either copies whole stores. */
dw_called dw_call(dw_setup setup, dw_store store, uint32_t op, uint32_t p, uint32_t f, uint32_t x);

/* A list of calls, run in order. calls has four numbers a call: op, p, f, x. Each call's answer, kind
 * and then value, goes to the front of answers; what lies past the last answer keeps its values. A
 * refused call leaves the store as it was, gets its answer, and the list goes on. The next store is
 * handed back with the number of calls run.
 * Refusals of the list as a whole, in this order: 15, 16, 10, 11. Then nothing is run, answers is
 * untouched, and the store comes back as it was. A single call is refused, in its own answer, with 5
 * to 9. calls is only read. answers must not overlap it. */
dw_listed dw_run(dw_setup setup, dw_store store, const uint32_t *calls, size_t calls_len,
                 uint32_t *answers, size_t answers_len);

/* Whether desk b can ever hear desk a. A call belongs to the desk of its process; one of a process that
 * does not exist belongs to none. Where nothing is refused, DW_NO_ROUTE is answered exactly when, for every list of calls from a
 * fresh store, striking out a's calls changes none of b's answers. Otherwise a list of calls that shows
 * the difference is written to the front of room, four numbers a call, for dw_run: run from a fresh store
 * it gives b a last answer of figure 1, and of DW_NOTHING with a's calls struck out.
 * A link runs from desk d to desk e when d has W and e has R on the class of some file, and each of the
 * two has a process. The list goes along the chain of fewest links from a to b, among those the one with
 * the smallest desk at the first difference. Each desk acts by its lowest process, each link uses the
 * lowest file that serves it: a's LOCK, WRITE of 1, UNLOCK; each middle desk's OPEN of the file before
 * it, LOCK of the next, COPY, UNLOCK; b's OPEN and READ. What lies past the list keeps its values.
 * Refusals, in this order: 15, 12, 13, 11. A refusal, and DW_NO_ROUTE, write nothing. */
dw_answer dw_route(dw_setup setup, uint32_t a, uint32_t b, uint32_t *room, size_t room_len);

/* Whether all that desk b can hear of desk a passes the desk gate. Where nothing is refused, DW_GUARDED is answered exactly
 * when, for every list of calls from a fresh store in which gate makes no call, striking out a's calls changes none of b's
 * answers; so where dw_route answers DW_NO_ROUTE for a and b, every other desk guards them. Otherwise DW_UNGUARDED, and a list of
 * calls that shows the difference, none of them gate's, is written to the front of room: the list that dw_route would write if no
 * link ran from gate or to it. What lies past the list keeps its values.
 * Refusals, in this order: 15; 12 for any of the three desks; 13 where any two of them are equal; 11, where the room is below
 * DW_ROUTE_NUMBERS, in which every list fits. With fewer than three desks it is 12 or 13 always, unless the setup is refused. A
 * refusal, and DW_GUARDED, write nothing. */
dw_answer dw_gate(dw_setup setup, uint32_t a, uint32_t b, uint32_t gate, uint32_t *room, size_t room_len);

/* The number of links from every desk to every desk at once. With D the setup's own number of desks, D * D numbers fill the
 * front of room, and the one for a and b lies at DW_GRID_AT(D, a, b): 0 where a is b, and where there is no route from a to b,
 * which is where b can never hear a; else the number k of links, above 0, of the chain that dw_route takes from a to b and
 * shows by DW_ROUTE_CALLS(k) calls. What lies past the D * D numbers keeps its values. Answers DW_DONE and D * D. Room of
 * D * D numbers is needed, and of DW_GRID_NUMBERS is enough for every setup.
 * Refusals, in this order: 15, 11. A refusal writes nothing. */
dw_answer dw_grid(dw_setup setup, uint32_t *room, size_t room_len);

/* A setup text, of any bytes. Its lines end with LF, the last too, their fields are parted by one tab, numbers
 * are decimal, with no sign, no leading zero but for 0 itself, and at most 4294967295. Its lines:
 * `store`, `1` and the counts of desks, classes, processes and files; then `access` lines with desk, class and
 * `R`, `W` or `RW`, strictly rising by desk, then class, absent pairs meaning none; then a line `process`,
 * number, desk for each process and a line `file`, number, class for each file, numbers upward from 0. A
 * further line is 14. The first faulty line decides, and its first byte's offset is told; for a missing line
 * that is the length of the text. Within a line: its shape (14), then 1, 3, 4, then rising order (14).
 * The text is only read. */
dw_text dw_read_alone(const uint8_t *text, size_t text_len);

/* A setup text and the call text that follows it: `calls`, `1`; then up to 1024 lines, each a word (`read`,
 * `write`, `lock`, `unlock`, `open`, `close`, `testlock`, `copy`), p, f, and for `write` and `copy` x; elsewhere x is read as 0. The
 * calls fill the front of room, four numbers each as dw_run takes them; what lies past them keeps its values.
 * Refusals: 11, with offset 0; then those of the text's lines. A refusal writes nothing. A call's own refusals
 * belong to running it. room must not overlap the text. The calls are read into a place on the stack first,
 * some 16 KB. */
dw_text dw_read_with_calls(const uint8_t *text, size_t text_len, uint32_t *room, size_t room_len);

#ifdef __cplusplus
}
#endif

#endif
