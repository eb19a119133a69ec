/* A reader of texts written by hand in C, as one would write it with no proof in mind: one cursor over the bytes, the
 * same line rules, the same refusals in the same order. Nothing here is proved; the benchmark compares what both answer, on the text that it times and on some thousand damaged ones. */
#include <string.h>

#include "peer.h"

/* What is read, and where: text + at is the next byte. */
typedef struct {
    const uint8_t *text;
    size_t len;
    size_t at;
} cursor;

/* The refusal of a text that breaks the line rules, and the largest number. */
enum { BROKEN = 14 };
#define MOST 4294967295u

/* A word and the mark after it. On anything else the cursor stays. */
static int take_word(cursor *c, const char *word, uint8_t mark)
{
    size_t n = 0;

    while (word[n] != 0) {
        if (c->at + n >= c->len || c->text[c->at + n] != (uint8_t)word[n])
            return 0;
        n++;
    }
    if (c->at + n >= c->len || c->text[c->at + n] != mark)
        return 0;
    c->at += n + 1;
    return 1;
}

/* A number and the mark after it. */
static int take_number(cursor *c, uint8_t mark, uint32_t *number)
{
    size_t i = c->at;
    size_t value = 0;

    while (i < c->len && c->text[i] >= '0' && c->text[i] <= '9') {
        value = value * 10 + (c->text[i] - '0');
        if (value > MOST)
            return 0;
        i++;
    }
    if (i == c->at || i == c->len || c->text[i] != mark || (c->text[c->at] == '0' && i > c->at + 1))
        return 0;
    c->at = i + 1;
    *number = (uint32_t)value;
    return 1;
}

static int take_pair(cursor *c, uint32_t *first, uint32_t *second)
{
    return take_number(c, '\t', first) && take_number(c, '\n', second);
}

static int within(uint32_t count, uint32_t most)
{
    return count >= 1 && count <= most;
}

static uint32_t take_header(cursor *c, dw_setup *s)
{
    if (!take_word(c, "store", '\t') || !take_word(c, "1", '\t') || !take_number(c, '\t', &s->desks) ||
        !take_number(c, '\t', &s->classes) || !take_pair(c, &s->processes, &s->files))
        return BROKEN;
    if (!within(s->desks, DW_DESKS) || !within(s->classes, DW_CLASSES) || !within(s->processes, DW_PROCESSES) ||
        !within(s->files, DW_FILES))
        return 1;
    return 0;
}

static uint8_t take_right(cursor *c)
{
    return take_word(c, "R", '\n') ? DW_R : take_word(c, "W", '\n') ? DW_W : take_word(c, "RW", '\n') ? DW_RW : DW_NONE;
}

/* One access line; least is the first place that rises. The cursor is past its word. */
static uint32_t take_access(cursor *c, dw_setup *s, uint32_t *least)
{
    uint32_t desk, class, place;
    uint8_t right;

    if (!take_number(c, '\t', &desk) || !take_number(c, '\t', &class) || (right = take_right(c)) == DW_NONE)
        return BROKEN;
    if (desk >= s->desks)
        return DW_REFUSAL_DESK;
    if (class >= s->classes)
        return DW_REFUSAL_CLASS;
    place = desk * DW_CLASSES + class;
    if (place < *least)
        return BROKEN;
    s->rights[place] = right;
    *least = place + 1;
    return 0;
}

/* One line of a word, its number, and an entry below a bound. */
static uint32_t take_entry(cursor *c, const char *word, uint32_t due, uint32_t bound, uint32_t refusal, uint8_t *entry)
{
    uint32_t number, value;

    if (!take_word(c, word, '\t') || !take_pair(c, &number, &value))
        return BROKEN;
    if (value >= bound)
        return refusal;
    if (number != due)
        return BROKEN;
    *entry = (uint8_t)value;
    return 0;
}

/* Reads a setup's lines. Where one is refused, start is its offset. */
static uint32_t take_setup(cursor *c, dw_setup *s, size_t *start)
{
    uint32_t refusal, least = 0;

    *start = 0;
    if ((refusal = take_header(c, s)) != 0)
        return refusal;
    for (*start = c->at; take_word(c, "access", '\t'); *start = c->at)
        if ((refusal = take_access(c, s, &least)) != 0)
            return refusal;
    for (uint32_t p = 0; p < s->processes; p++, *start = c->at)
        if ((refusal = take_entry(c, "process", p, s->desks, 3, s->desk_of + p)) != 0)
            return refusal;
    for (uint32_t f = 0; f < s->files; f++, *start = c->at)
        if ((refusal = take_entry(c, "file", f, s->classes, 4, s->class_of + f)) != 0)
            return refusal;
    return 0;
}

/* The code of a call's word, or 0: its first letter tells which it can be. */
static uint32_t take_code(cursor *c)
{
    switch (c->at < c->len ? c->text[c->at] : 0) {
    case 'r':
        return take_word(c, "read", '\t') ? DW_READ : 0;
    case 'w':
        return take_word(c, "write", '\t') ? DW_WRITE : 0;
    case 'l':
        return take_word(c, "lock", '\t') ? DW_LOCK : 0;
    case 'u':
        return take_word(c, "unlock", '\t') ? DW_UNLOCK : 0;
    case 'o':
        return take_word(c, "open", '\t') ? DW_OPEN : 0;
    case 't':
        return take_word(c, "testlock", '\t') ? DW_TESTLOCK : 0;
    default:
        return take_word(c, "close", '\t') ? DW_CLOSE : take_word(c, "copy", '\t') ? DW_COPY : 0;
    }
}

static int take_call(cursor *c, uint32_t *call)
{
    call[0] = take_code(c);
    call[3] = 0;
    if (call[0] == 0)
        return 0;
    if (call[0] != DW_WRITE && call[0] != DW_COPY)
        return take_pair(c, call + 1, call + 2);
    return take_number(c, '\t', call + 1) && take_pair(c, call + 2, call + 3);
}

static dw_text refused(uint32_t refusal, size_t offset)
{
    dw_text t;

    memset(&t, 0, sizeof t);
    t.answer.kind = DW_REFUSED;
    t.answer.value = refusal;
    t.offset = offset;
    return t;
}

/* As dw_read_with_calls. */
dw_text peer_read_with_calls(const uint8_t *text, size_t text_len, uint32_t *room, size_t room_len)
{
    uint32_t calls[DW_CALLS * DW_CALL_WIDTH], count = 0, refusal;
    cursor c = {text, text_len, 0};
    size_t start;
    dw_text t;

    if (room_len < DW_CALLS * DW_CALL_WIDTH)
        return refused(11, 0);
    memset(&t, 0, sizeof t);
    if ((refusal = take_setup(&c, &t.setup, &start)) != 0)
        return refused(refusal, start);
    if (!take_word(&c, "calls", '\t') || !take_word(&c, "1", '\n'))
        return refused(BROKEN, start);
    for (start = c.at; c.at < text_len; start = c.at)
        if (count == DW_CALLS || !take_call(&c, calls + count++ * DW_CALL_WIDTH))
            return refused(BROKEN, start);
    memcpy(room, calls, count * DW_CALL_WIDTH * sizeof calls[0]);
    t.answer.value = count;
    return t;
}
