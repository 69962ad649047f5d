/*
 * Written by clients/generate: do not edit. The calls of trigger.h on a card that pass pointers, over
 * those of the proved module of crates/trigger. `make` compiles the two as one. It checks that the
 * functions below are declared as the module defines them, and writes trigger_sizes.h, the sizes of
 * what the module passes. A function whose name ends in _in changes the card where it is.
 */
#include "inner.h"
#include "trigger_sizes.h"

typedef struct {
    trigger_card card;
    uint8_t k;
    uint64_t len;
} inner_answered;

typedef struct {
    uint8_t k;
    uint64_t len;
} inner_printed;

typedef struct {
    uint8_t k;
    uint64_t len;
} inner_converted;

/* The functions of the module. Each copies what it is given first, and writes its result last. */
void trigger_inner_fresh(trigger_card *result);
void trigger_inner_fresh_large(trigger_card *result);
void trigger_inner_quick_tick_in(trigger_answer *result, trigger_card *card, const trigger_input *input);
void trigger_inner_full_tick_in(trigger_answer *result, trigger_card *card, const trigger_input *input);
bool trigger_inner_at_rest(const trigger_card *card, const trigger_input *input);
uint32_t trigger_inner_steady_for(const trigger_card *card, const trigger_input *input);
void trigger_inner_advance(trigger_advanced *result, const trigger_card *card, const trigger_input *input, uint32_t k);
void trigger_inner_load(trigger_loaded *result, const trigger_card *card, const slice *bytes);
void trigger_inner_line(inner_answered *result, const trigger_card *card, const slice *text, const slice *reply,
                        const slice *store);
void trigger_inner_print(inner_printed *result, const trigger_card *card, const slice *buffer);
void trigger_inner_convert(inner_converted *result, const slice *bytes, const slice *buffer);
void trigger_inner_survey(trigger_surveyed *result, const trigger_card *card, uint64_t place);
void trigger_inner_read_tallies(trigger_tallies *result, const trigger_card *card);

SAME(trigger_card, MODULE_trigger_fresh_0);
SAME(trigger_card, MODULE_trigger_fresh_large_0);
SAME(trigger_answer, MODULE_trigger_quick_tick_in_0);
SAME(trigger_card, MODULE_trigger_quick_tick_in_1);
SAME(trigger_input, MODULE_trigger_quick_tick_in_2);
SAME(trigger_answer, MODULE_trigger_full_tick_in_0);
SAME(trigger_card, MODULE_trigger_full_tick_in_1);
SAME(trigger_input, MODULE_trigger_full_tick_in_2);
SAME(trigger_card, MODULE_trigger_at_rest_0);
SAME(trigger_input, MODULE_trigger_at_rest_1);
SAME(trigger_card, MODULE_trigger_steady_for_0);
SAME(trigger_input, MODULE_trigger_steady_for_1);
SAME(trigger_advanced, MODULE_trigger_advance_0);
SAME(trigger_card, MODULE_trigger_advance_1);
SAME(trigger_input, MODULE_trigger_advance_2);
SAME(trigger_loaded, MODULE_trigger_load_0);
SAME(trigger_card, MODULE_trigger_load_1);
SAME(slice, MODULE_trigger_load_2);
SAME(inner_answered, MODULE_trigger_line_0);
SAME(trigger_card, MODULE_trigger_line_1);
SAME(slice, MODULE_trigger_line_2);
SAME(slice, MODULE_trigger_line_3);
SAME(slice, MODULE_trigger_line_4);
SAME(inner_printed, MODULE_trigger_print_0);
SAME(trigger_card, MODULE_trigger_print_1);
SAME(slice, MODULE_trigger_print_2);
SAME(inner_converted, MODULE_trigger_convert_0);
SAME(slice, MODULE_trigger_convert_1);
SAME(slice, MODULE_trigger_convert_2);
SAME(trigger_surveyed, MODULE_trigger_survey_0);
SAME(trigger_card, MODULE_trigger_survey_1);
SAME(trigger_tallies, MODULE_trigger_read_tallies_0);
SAME(trigger_card, MODULE_trigger_read_tallies_1);

uint32_t trigger_version(void)
{
    return TRIGGER_VERSION;
}

uint32_t trigger_layout(void)
{
    return TRIGGER_LAYOUT;
}

size_t trigger_card_size(void)
{
    return MODULE_trigger_fresh_0;
}

void trigger_fresh_at(trigger_card *card)
{
    trigger_inner_fresh(card);
}

void trigger_fresh_large_at(trigger_card *card)
{
    trigger_inner_fresh_large(card);
}

void trigger_quick_tick_at(trigger_card *card, const trigger_input *input, trigger_answer *answer)
{
    trigger_inner_quick_tick_in(answer, card, input);
}

void trigger_full_tick_at(trigger_card *card, const trigger_input *input, trigger_answer *answer)
{
    trigger_inner_full_tick_in(answer, card, input);
}

bool trigger_at_rest_at(const trigger_card *card, const trigger_input *input)
{
    return trigger_inner_at_rest(card, input);
}

uint32_t trigger_steady_for_at(const trigger_card *card, const trigger_input *input)
{
    return trigger_inner_steady_for(card, input);
}

uint32_t trigger_advance_at(trigger_card *card, const trigger_input *input, uint32_t k, trigger_answer *answer)
{
    trigger_advanced result;
    trigger_inner_advance(&result, card, input, k);
    *card = result.card;
    *answer = result.answer;
    return result.made;
}

uint8_t trigger_load_at(trigger_card *card, const uint8_t *bytes, size_t bytes_len)
{
    const slice bytes_slice = slice_of(bytes, bytes_len);
    trigger_loaded result;
    trigger_inner_load(&result, card, &bytes_slice);
    *card = result.card;
    return result.k;
}

uint8_t trigger_line_at(trigger_card *card, const uint8_t *text, size_t text_len, uint8_t *reply, size_t reply_len,
                        uint8_t *store, size_t store_len, size_t *len)
{
    const slice text_slice = slice_of(text, text_len), reply_slice = slice_of(reply, reply_len),
                store_slice = slice_of(store, store_len);
    inner_answered result;
    trigger_inner_line(&result, card, &text_slice, &reply_slice, &store_slice);
    *card = result.card;
    *len = (size_t)result.len;
    return result.k;
}

uint8_t trigger_print_at(const trigger_card *card, uint8_t *buffer, size_t buffer_len, size_t *len)
{
    const slice buffer_slice = slice_of(buffer, buffer_len);
    inner_printed result;
    trigger_inner_print(&result, card, &buffer_slice);
    *len = (size_t)result.len;
    return result.k;
}

uint8_t trigger_convert_at(const uint8_t *bytes, size_t bytes_len, uint8_t *buffer, size_t buffer_len, size_t *len)
{
    const slice bytes_slice = slice_of(bytes, bytes_len), buffer_slice = slice_of(buffer, buffer_len);
    inner_converted result;
    trigger_inner_convert(&result, &bytes_slice, &buffer_slice);
    *len = (size_t)result.len;
    return result.k;
}

uint8_t trigger_survey_at(const trigger_card *card, uint64_t place, trigger_surveyed *surveyed)
{
    trigger_inner_survey(surveyed, card, place);
    return surveyed->k;
}

void trigger_read_tallies_at(const trigger_card *card, trigger_tallies *tallies)
{
    trigger_inner_read_tallies(tallies, card);
}
