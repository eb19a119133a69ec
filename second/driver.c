/* Puts cases from standard input to the library, and writes what it answered and all that it was lent.
 *
 * A case is two 32-bit numbers, its kind and the length of its body in bytes, and the body. A reply is
 * one number, its length in bytes, and then: the struct handed back, and each lent run whole, in the
 * order of the function's parameters, with the guards that lie before and after it.
 * It ends with 0 at the end of the cases, and with 1 where the stream of cases is not of this form. */
#include <string.h>

#include "dirgewater.h"

/* The small headers declare nothing that reads. */
long read(int file, void *to, size_t count);
long write(int file, const void *from, size_t count);

enum { ACCEPT = 1, FRESH, JUDGE, CALL, CALL_IN_PLACE, LIST, ROUTE, READ_ALONE, READ_WITH_CALLS, GRID, GATE };

/* Odd, so that a lent run lies at no rounder address than its type asks. */
#define GUARD_WORDS 9
#define GUARD_BYTES 33
#define GUARD_WORD 0xD1D2D3D4u
#define GUARD_BYTE 0xD5

#define WORDS_MOST 8192
#define BYTES_MOST 131072
#define BODY_MOST 262144
#define OUT_MOST 524288
#define IN_MOST 65536

/* A run of numbers between guards. */
typedef struct words {
    size_t len;
    uint32_t cells[GUARD_WORDS + WORDS_MOST + GUARD_WORDS];
} words;

/* A run of bytes between guards. */
typedef struct bytes {
    size_t len;
    uint8_t cells[GUARD_BYTES + BYTES_MOST + GUARD_BYTES];
} bytes;

/* A store between guards, to be lent in place. */
typedef struct kept {
    uint32_t before[GUARD_WORDS];
    dw_store store;
    uint32_t after[GUARD_WORDS];
} kept;

static uint8_t in[IN_MOST], body[BODY_MOST], out[OUT_MOST];
static size_t in_at, in_len, body_at, body_len, out_len;
static int broken;

static words first_words, second_words;
static bytes first_bytes, second_bytes, third_bytes;
static kept lying;
static dw_setup setup;
static dw_store store;

/* ---- The stream. */

/* The next bytes of standard input; 0 where it ends before them. */
static int fill(void *to, size_t count) {
    uint8_t *next = to;
    while (count > 0) {
        if (in_at == in_len) {
            long got = read(0, in, IN_MOST);
            if (got <= 0) return 0;
            in_at = 0;
            in_len = (size_t)got;
        }
        size_t part = in_len - in_at < count ? in_len - in_at : count;
        memcpy(next, in + in_at, part);
        in_at += part;
        next += part;
        count -= part;
    }
    return 1;
}

static void flush(void) {
    size_t done = 0;
    while (done < out_len) {
        long put = write(1, out + done, out_len - done);
        if (put <= 0) {
            broken = 1;
            break;
        }
        done += (size_t)put;
    }
    out_len = 0;
}

static void put(const void *from, size_t count) {
    memcpy(out + out_len, from, count);
    out_len += count;
}

/* The next bytes of the body; where it has no more, the stream is broken. */
static void take(void *to, size_t count) {
    if (count > body_len - body_at) {
        broken = 1;
        memset(to, 0, count);
        return;
    }
    memcpy(to, body + body_at, count);
    body_at += count;
}

static uint32_t take_number(void) {
    uint32_t number;
    take(&number, sizeof number);
    return number;
}

/* ---- Lent runs. */

static void take_words(words *run, size_t len) {
    if (len > WORDS_MOST) {
        broken = 1;
        len = 0;
    }
    run->len = len;
    for (size_t i = 0; i < GUARD_WORDS; i++) {
        run->cells[i] = GUARD_WORD;
        run->cells[GUARD_WORDS + len + i] = GUARD_WORD;
    }
    take(run->cells + GUARD_WORDS, len * sizeof(uint32_t));
}

static void take_bytes(bytes *run, size_t len) {
    if (len > BYTES_MOST) {
        broken = 1;
        len = 0;
    }
    run->len = len;
    memset(run->cells, GUARD_BYTE, GUARD_BYTES);
    memset(run->cells + GUARD_BYTES + len, GUARD_BYTE, GUARD_BYTES);
    take(run->cells + GUARD_BYTES, len);
}

static void put_words(const words *run) {
    put(run->cells, (GUARD_WORDS + run->len + GUARD_WORDS) * sizeof(uint32_t));
}

static void put_bytes(const bytes *run) { put(run->cells, GUARD_BYTES + run->len + GUARD_BYTES); }

static uint32_t *of_words(words *run) { return run->cells + GUARD_WORDS; }
static uint8_t *of_bytes(bytes *run) { return run->cells + GUARD_BYTES; }

/* ---- The cases. */

static void do_accept(void) {
    uint32_t counts[4], lengths[3];
    take(counts, sizeof counts);
    take(lengths, sizeof lengths);
    take_bytes(&first_bytes, lengths[0]);
    take_bytes(&second_bytes, lengths[1]);
    take_bytes(&third_bytes, lengths[2]);
    dw_given_setup given = dw_accept(counts[0], counts[1], counts[2], counts[3],
                                     of_bytes(&first_bytes), first_bytes.len,
                                     of_bytes(&second_bytes), second_bytes.len,
                                     of_bytes(&third_bytes), third_bytes.len);
    put(&given, sizeof given);
    put_bytes(&first_bytes);
    put_bytes(&second_bytes);
    put_bytes(&third_bytes);
}

static void do_fresh(void) {
    take(&setup, sizeof setup);
    dw_given_store given = dw_fresh(setup);
    put(&given, sizeof given);
}

static void do_judge(void) {
    take(&setup, sizeof setup);
    take(&store, sizeof store);
    uint32_t refusal = dw_judge(setup, store);
    put(&refusal, sizeof refusal);
}

static void do_call(void) {
    uint32_t call[DW_CALL_WIDTH];
    take(&setup, sizeof setup);
    take(&store, sizeof store);
    take(call, sizeof call);
    dw_called called = dw_call(setup, store, call[0], call[1], call[2], call[3]);
    put(&called, sizeof called);
}

static void do_call_in_place(void) {
    uint32_t call[DW_CALL_WIDTH];
    take(&setup, sizeof setup);
    take(&lying.store, sizeof lying.store);
    take(call, sizeof call);
    for (size_t i = 0; i < GUARD_WORDS; i++) lying.before[i] = lying.after[i] = GUARD_WORD;
    dw_answer answer = dw_call_in_place(setup, &lying.store, call[0], call[1], call[2], call[3]);
    put(&answer, sizeof answer);
    put(&lying, sizeof lying);
}

static void do_list(void) {
    take(&setup, sizeof setup);
    take(&store, sizeof store);
    uint32_t calls_len = take_number(), answers_len = take_number();
    take_words(&first_words, calls_len);
    take_words(&second_words, answers_len);
    dw_listed listed = dw_run(setup, store, of_words(&first_words), first_words.len,
                              of_words(&second_words), second_words.len);
    put(&listed, sizeof listed);
    put_words(&first_words);
    put_words(&second_words);
}

static void do_route(void) {
    take(&setup, sizeof setup);
    uint32_t a = take_number(), b = take_number(), room_len = take_number();
    take_words(&first_words, room_len);
    dw_answer answer = dw_route(setup, a, b, of_words(&first_words), first_words.len);
    put(&answer, sizeof answer);
    put_words(&first_words);
}

static void do_read_alone(void) {
    take_bytes(&first_bytes, take_number());
    dw_text text = dw_read_alone(of_bytes(&first_bytes), first_bytes.len);
    put(&text, sizeof text);
    put_bytes(&first_bytes);
}

static void do_read_with_calls(void) {
    uint32_t text_len = take_number(), room_len = take_number();
    take_bytes(&first_bytes, text_len);
    take_words(&first_words, room_len);
    dw_text text = dw_read_with_calls(of_bytes(&first_bytes), first_bytes.len,
                                      of_words(&first_words), first_words.len);
    put(&text, sizeof text);
    put_bytes(&first_bytes);
    put_words(&first_words);
}

static void do_grid(void) {
    take(&setup, sizeof setup);
    take_words(&first_words, take_number());
    dw_answer answer = dw_grid(setup, of_words(&first_words), first_words.len);
    put(&answer, sizeof answer);
    put_words(&first_words);
}

static void do_gate(void) {
    take(&setup, sizeof setup);
    uint32_t a = take_number(), b = take_number(), gate = take_number(), room_len = take_number();
    take_words(&first_words, room_len);
    dw_answer answer = dw_gate(setup, a, b, gate, of_words(&first_words), first_words.len);
    put(&answer, sizeof answer);
    put_words(&first_words);
}

static void do_case(uint32_t kind) {
    switch (kind) {
    case ACCEPT: do_accept(); break;
    case FRESH: do_fresh(); break;
    case JUDGE: do_judge(); break;
    case CALL: do_call(); break;
    case CALL_IN_PLACE: do_call_in_place(); break;
    case LIST: do_list(); break;
    case ROUTE: do_route(); break;
    case READ_ALONE: do_read_alone(); break;
    case READ_WITH_CALLS: do_read_with_calls(); break;
    case GRID: do_grid(); break;
    case GATE: do_gate(); break;
    default: broken = 1;
    }
}

/* One case and its reply, whose length goes before it once it is known. It is written at once, so that where a case
 * ends the process or hangs, the replies before it are there. */
static void answer_case(uint32_t kind) {
    out_len = sizeof(uint32_t);
    body_at = 0;
    do_case(kind);
    if (body_at != body_len) broken = 1;
    uint32_t length = (uint32_t)(out_len - sizeof(uint32_t));
    memcpy(out, &length, sizeof length);
    if (!broken) flush();
}

int main(void) {
    uint32_t head[2];
    while (!broken && fill(head, sizeof head)) {
        body_len = head[1];
        if (body_len > BODY_MOST || !fill(body, body_len)) return 1;
        answer_case(head[0]);
    }
    return broken;
}
