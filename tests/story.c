/* What the gate report says of the house in docs/STORY.md, whose text, with calls, is standard input: `guarded`, `around` where
 * the list that it writes is the text's own calls, or `neither`. */
#include <stdio.h>

#include "dirgewater.h"

enum { MOST_BYTES = 4096, SCORER = 0, RELEASE = 2, BUYERS = 3 };

/* Answers how many bytes it read. */
static size_t read_text(uint8_t *bytes)
{
    size_t len = 0;
    int byte;

    while (len < MOST_BYTES && (byte = getchar()) != EOF)
        bytes[len++] = (uint8_t)byte;
    return len;
}

static int is_list(const uint32_t *list, const uint32_t *calls, uint32_t count)
{
    for (uint32_t i = 0; i < count * DW_CALL_WIDTH; i++)
        if (list[i] != calls[i])
            return 0;
    return 1;
}

int main(void)
{
    static uint8_t bytes[MOST_BYTES];
    static uint32_t calls[DW_CALL_NUMBERS], room[DW_ROUTE_NUMBERS];
    dw_text text = dw_read_with_calls(bytes, read_text(bytes), calls, DW_CALL_NUMBERS);
    dw_answer said = dw_gate(text.setup, SCORER, BUYERS, RELEASE, room, DW_ROUTE_NUMBERS);

    if (said.kind == DW_GUARDED)
        printf("guarded\n");
    else if (said.kind == DW_UNGUARDED && said.value == text.answer.value && is_list(room, calls, said.value))
        printf("around\n");
    else
        printf("neither\n");
    return 0;
}
