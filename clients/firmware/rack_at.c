/*
 * Written by clients/generate: do not edit. The calls of trigger.h on a row of cards that pass
 * pointers, over those of the proved module of crates/rack_c, as at.c. A row is passed as a slice, and
 * its cards are changed where they are.
 */
#include "inner.h"
#include "rack_sizes.h"

typedef struct {
    uint8_t k;
    uint64_t len;
} inner_replied;

/* The functions of the module. Each copies what it is given first, and writes its result last. */
uint8_t rack_inner_start(const slice *row);
void rack_inner_tick(trigger_rackticked *result, const slice *row, bool full, const trigger_rackinput *input);
void rack_inner_line(inner_replied *result, const slice *row, uint64_t number, const slice *text, const slice *reply,
                     const slice *store);
uint8_t rack_inner_load(const slice *row, uint64_t number, const slice *bytes);

SAME(slice, MODULE_rack_start_0);
SAME(trigger_rackticked, MODULE_rack_tick_0);
SAME(slice, MODULE_rack_tick_1);
SAME(trigger_rackinput, MODULE_rack_tick_3);
SAME(inner_replied, MODULE_rack_line_0);
SAME(slice, MODULE_rack_line_1);
SAME(slice, MODULE_rack_line_3);
SAME(slice, MODULE_rack_line_4);
SAME(slice, MODULE_rack_line_5);
SAME(slice, MODULE_rack_load_0);
SAME(slice, MODULE_rack_load_2);
SAME(trigger_card, MODULE_rack_row_step);

uint8_t rack_start_at(trigger_card *row, size_t row_len)
{
    const slice row_slice = slice_of(row, row_len);
    return rack_inner_start(&row_slice);
}

uint8_t rack_tick_at(trigger_card *row, size_t row_len, bool full, const trigger_rackinput *input,
                     trigger_rackticked *ticked)
{
    const slice row_slice = slice_of(row, row_len);
    rack_inner_tick(ticked, &row_slice, full, input);
    return ticked->k;
}

uint8_t rack_line_at(trigger_card *row, size_t row_len, size_t number, const uint8_t *text, size_t text_len,
                     uint8_t *reply, size_t reply_len, uint8_t *store, size_t store_len, size_t *len)
{
    const slice row_slice = slice_of(row, row_len), text_slice = slice_of(text, text_len),
                reply_slice = slice_of(reply, reply_len), store_slice = slice_of(store, store_len);
    inner_replied result;
    rack_inner_line(&result, &row_slice, number, &text_slice, &reply_slice, &store_slice);
    *len = (size_t)result.len;
    return result.k;
}

uint8_t rack_load_at(trigger_card *row, size_t row_len, size_t number, const uint8_t *bytes, size_t bytes_len)
{
    const slice row_slice = slice_of(row, row_len), bytes_slice = slice_of(bytes, bytes_len);
    return rack_inner_load(&row_slice, number, &bytes_slice);
}
