/* The hand-written store that the library is measured against. */
#ifndef PEER_H
#define PEER_H

#include "dirgewater.h"

/* As dw_call_in_place. */
dw_answer peer_call(const dw_setup *setup, dw_store *store, uint32_t op, uint32_t p, uint32_t f, uint32_t x);

/* As dw_run, on one store in place. */
dw_answer peer_run(const dw_setup *setup, dw_store *store, const uint32_t *calls, size_t calls_len,
                   uint32_t *answers, size_t answers_len);

/* As dw_route. */
dw_answer peer_route(const dw_setup *setup, uint32_t a, uint32_t b, uint32_t *room, size_t room_len);

/* As dw_gate. */
dw_answer peer_gate(const dw_setup *setup, uint32_t a, uint32_t b, uint32_t gate, uint32_t *room, size_t room_len);

/* As dw_grid. */
dw_answer peer_grid(const dw_setup *setup, uint32_t *room, size_t room_len);

/* As dw_read_with_calls. */
dw_text peer_read_with_calls(const uint8_t *text, size_t text_len, uint32_t *room, size_t room_len);

#endif
