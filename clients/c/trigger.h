/*
 * The trigger card as a static library, for C11 and C++11.
 *
 * Written by clients/generate from the crates and trigger.h.in: do not edit.
 *
 * There are two kinds of calls. Those whose names end in _at take the card by a pointer and change
 * it where it is: they are the same on every processor, and `clients/firmware/make TARGET` builds
 * them. Those under TRIGGER_BY_VALUE pass structs by value; they are for x86-64 alone, and are in
 * target/staticlib/libtrigger.a, which `./build trigger` makes, and beside the others in the
 * library that `clients/firmware/make x86-64` makes. The calls on a row of cards, whose names start
 * with rack_, are in a library of their own beside it: librack.a, which `./build rack` makes.
 *
 * A card comes from trigger_fresh or trigger_fresh_large, and from calls on such a card. Memory
 * that is all zero is no card: its pointer is at no place, and what is proved of cards that calls
 * have made does not hold of it. A card has no pointers to memory, so it may be copied by
 * assignment and kept anywhere. It has padding, which calls leave to chance: memcmp may find two
 * equal cards different. Compare fields, or the records that `36SS Z` saves.
 *
 * The library allocates nothing and keeps nothing between calls, so two threads, or a loop and an
 * interrupt, may call it at once, each with cards and buffers of its own.
 *
 * Bytes are passed as a pointer and a length. The pointer is never NULL, also where the length is
 * 0; it must be good for that many bytes for the time of the call, and what is written must not
 * overlap anything else that the call is given. No buffer needs to end in a zero, and no text that
 * is written ends in one. What a length leaves no room for is refused, never written.
 *
 * `k` is 0, or the number of the refusal (TRIGGER_REFUSED_...); docs/MANUAL.md says what each
 * means. A refused call leaves card and store as they were.
 *
 * docs/PERFORMANCE.md has the stack that each call takes, on each processor.
 */
#ifndef TRIGGER_H
#define TRIGGER_H

#include <stdbool.h>
#include <stddef.h>
#include <stdint.h>

/*
 * The version of the release that this header belongs to, as a text and as a number of two decimal
 * digits for each part. Its first part is the number of the last change request that the card
 * meets. The library has its own (trigger_version), and with TRIGGER_LAYOUT below one can tell at
 * start whether the two belong together: see trigger_matches.
 */
#define TRIGGER_VERSION_TEXT "14.2.0"
#define TRIGGER_VERSION 140200

/* A card has sixteen cells or thirty-two, and always room for thirty-two. */
#define TRIGGER_SMALL 16
#define TRIGGER_LARGE 32
#define TRIGGER_CELLS 32
#define TRIGGER_CONNECTORS 16

/* The fewest bytes that a reply buffer may have; no reply is longer. */
#define TRIGGER_REPLY 16

/*
 * The length of a record, which `36SS Z` writes and a load takes: of a card of sixteen cells, and
 * of one of thirty-two.
 */
#define TRIGGER_RECORD 308
#define TRIGGER_LARGE_RECORD 516

/* The length of an old record, which a card of sixteen cells loads as well. */
#define TRIGGER_OLD_RECORD 276

/* A buffer of this length has room for the wiring of any card. */
#define TRIGGER_TEXT 4611

/* The types of cells: 36CCA Y at a cell. */
enum {
    TRIGGER_CONSTANT = 0,
    TRIGGER_D_FLOP = 1,
    TRIGGER_LOOKUP2 = 2,
    TRIGGER_LOOKUP3 = 3,
    TRIGGER_LOOKUP4 = 4,
    TRIGGER_AND2 = 5,
    TRIGGER_OR2 = 6,
    TRIGGER_XOR2 = 7,
    TRIGGER_ONE_SHOT_RETRIGGERABLE = 8,
    TRIGGER_DELAY_RETRIGGERABLE = 9,
    TRIGGER_AND4 = 10,
    TRIGGER_OR4 = 11,
    TRIGGER_SYNC_D_FLOP = 12,
    TRIGGER_JK_FLOP = 13,
    TRIGGER_ONE_SHOT = 14,
    TRIGGER_DELAY = 15,
    TRIGGER_ONE_SHOT_TWO_TRIGGERS = 16,
    TRIGGER_DELAY_TWO_TRIGGERS = 17,
    TRIGGER_D_FLOP_TWO_RESETS = 18,
    TRIGGER_COUNTER_AND = 19,
    TRIGGER_COUNTER_OR = 20,
    TRIGGER_COUNTER_START_STOP = 21,
    TRIGGER_COUNTER_START_AT_ZERO = 22,
    TRIGGER_LAST_TYPE = 22
};

/*
 * The types of connectors: 36CCA Y at a connector. trigger_connector_type gives that of a card's
 * connector.
 */
enum { TRIGGER_INPUT = 0, TRIGGER_OPEN_DRAIN = 1, TRIGGER_PUSH_PULL = 2 };

/*
 * The trigger source, which is the code of the clock that the card takes ticks of (PM E): 0 to 4.
 * With the last one the ticks come in at BNC1.
 */
enum { TRIGGER_LAST_SOURCE = 4, TRIGGER_SOURCE_BNC1 = 4 };

/*
 * Addresses, which slots and connectors read: nothing (always low), cells by their numbers from 1
 * on, BNC1 to BNC8, TTL0 to TTL7; to each of these its inverse, its rise and its fall by what is
 * added. Places, which the pointer goes to (M E), are the addresses of cells and connectors.
 */
enum {
    TRIGGER_LOW = 0,
    TRIGGER_CELL1 = 1,
    TRIGGER_BNC1 = 33,
    TRIGGER_TTL0 = 41,
    TRIGGER_CONNECTORS_END = 49,
    TRIGGER_INVERSE = 64,
    TRIGGER_RISE = 128,
    TRIGGER_FALL = 192,
    TRIGGER_HIGH = TRIGGER_LOW + TRIGGER_INVERSE,
    TRIGGER_NEVER = TRIGGER_LOW + TRIGGER_RISE,
    TRIGGER_EACH_TICK = TRIGGER_LOW + TRIGGER_FALL
};

/*
 * Presets (36CCA X) have numbers from 0 to this one; not all are offered. On thirty-two cells 51 is
 * offered too.
 */
enum { TRIGGER_LAST_PRESET = 59 };

/* The numbers of refusals, lowest first where several apply. */
enum {
    TRIGGER_REFUSED_ROOM = 1,           /* a buffer is too short */
    TRIGGER_REFUSED_FORM = 2,           /* no line of any form */
    TRIGGER_REFUSED_CARD = 3,           /* another card is meant */
    TRIGGER_REFUSED_NUMBER = 4,         /* a number above 4294967295 */
    TRIGGER_REFUSED_PLACE = 5,          /* no such place */
    TRIGGER_REFUSED_AT_CONNECTOR = 6,   /* nothing that a connector has */
    TRIGGER_REFUSED_TYPE = 7,           /* no such type or trigger source */
    TRIGGER_REFUSED_PRESET = 8,         /* not offered */
    TRIGGER_REFUSED_CONFIGURATION = 9,  /* too large, or the type has none */
    TRIGGER_REFUSED_SLOT = 10,          /* the type does not use it */
    TRIGGER_REFUSED_ADDRESS = 11,       /* above 255, or reserved */
    TRIGGER_REFUSED_STATE = 12,         /* too large, or the type has none */
    TRIGGER_REFUSED_BNC1 = 13,          /* an output where the ticks come in */
    TRIGGER_REFUSED_RECORD = 14,        /* no record */
    TRIGGER_REFUSED_SETTINGS = 15,      /* settings that no line can set */
    TRIGGER_REFUSED_TEXT = 16,          /* the wiring is longer than the buffer */
    TRIGGER_REFUSED_DURATION = 17,      /* the old record has no room for it */
    TRIGGER_REFUSED_CELL = 18,          /* sixteen cells have no such cell */
    TRIGGER_REFUSED_SUPPLY = 19,        /* the lamps of the rack would draw too much */
    TRIGGER_REFUSED_RACK = 20           /* no rack, or no such card in it */
};

/* One of the cells: its settings, and what it keeps between ticks. */
typedef struct {
    uint32_t config;  /* A constant, a lookup's code or a duration; 0 where the type has none. */
    uint32_t count;  /* A timer's count of pulses left, or a counter's count. */
    uint8_t slots[4];  /* The addresses in its slots X, Y, Z and F. */
    uint8_t kind;  /* Its type. */
    bool bit;  /* A flip-flop's bit, or whether a counter is active. */
    bool pulse;  /* Whether a delay's pulse is on. */
} trigger_cell;

/*
 * The connectors: BNC1 to BNC8, then TTL0 to TTL7. One that is in both words is push-pull, one that
 * is in neither is an input.
 */
typedef struct {
    uint8_t sources[TRIGGER_CONNECTORS];  /* The addresses that they are driven from. */
    uint16_t push_pull;  /* Those that are push-pull, in the order of the sample. */
    uint16_t open_drain;  /* Those that are open-drain. */
} trigger_connectors;

/* The words of the last tick that ran, of the one before it (2), and of the one before that (3). */
typedef struct {
    uint16_t driven;  /* What the card drove at the connectors. */
    uint16_t pulled;  /* The lines of the backplane that it pulled low. */
    uint32_t outputs;  /* The outputs of the cells, bit 0 of cell 1. */
    uint32_t outputs2;
    uint32_t outputs3;
    uint16_t levels;  /* The levels of the connectors. */
    uint16_t levels2;
} trigger_memory;

/*
 * In how many ticks the waking rules named each cell, in full ticks too, and how many ticks ran,
 * since the card powered up or was loaded. Once 4,294,967,295 ticks have run, none of these
 * changes any more.
 */
typedef struct {
    uint32_t cells[TRIGGER_CELLS];  /* Of each cell, from cell 1 on; those past the card's cells are 0. */
    uint32_t total;  /* The ticks that ran. */
} trigger_tallies;

/* A card. Read it as you like; to change it, use lines. No call changes its number of cells. */
typedef struct {
    trigger_cell cells[TRIGGER_CELLS];  /* The cells, from cell 1 on. */
    trigger_connectors connectors;  /* The connectors. */
    uint64_t edited;  /* The cells that lines have changed since the last tick that ran. */
    trigger_memory memory;  /* What is remembered of ticks. */
    uint8_t pointer;  /* The place that lines are for: a cell's number, or 33 to 48. */
    uint8_t trigger;  /* The code of the clock that it ticks by. */
    uint8_t size;  /* Its number of cells: 32, and any other number means 16. */
    trigger_tallies tallies;  /* Which cells woke how often. */
} trigger_card;

/* What comes in with a tick. */
typedef struct {
    uint8_t code;  /* The code of its clock. */
    uint16_t sample;  /* The levels at the connectors: bits 0 to 7 BNC1 to BNC8, bits 8 to 15 TTL0 to TTL7. */
    uint16_t attached;  /* Which connectors have something attached, in the order of the sample. */
} trigger_input;

/*
 * What a tick answers. A tick of another clock than the card's does not run, and its words are 0.
 */
typedef struct {
    bool ran;  /* Whether the tick ran. */
    uint16_t driven;  /* What the card drives at the connectors, in the order of the sample. */
    uint32_t cells;  /* The outputs of the cells, bit 0 of cell 1. */
    uint32_t woken;  /* The cells that were worked out. */
    uint32_t count;  /* How many these are. */
} trigger_answer;

/* The card after a tick, and the answer. */
typedef struct {
    trigger_card card;
    trigger_answer answer;
} trigger_ticked;

/*
 * How many ticks for trigger_steady_for to say that they never end, and the most that one call
 * makes.
 */
#define TRIGGER_FOREVER UINT32_C(4294967295)

/*
 * The card after ticks that were made at once, the answer of the last of them, and how many were
 * made.
 */
typedef struct {
    trigger_card card;
    trigger_answer answer;
    uint32_t made;
} trigger_advanced;

/* The card after a line, the number of the refusal, and the length of the reply. */
typedef struct {
    trigger_card card;
    uint8_t k;
    size_t len;
} trigger_answered;

/* The card after a load, and the number of the refusal. */
typedef struct {
    trigger_card card;
    uint8_t k;
} trigger_loaded;

/* The number of the refusal, and the length of the text, 0 where it is refused. */
typedef struct {
    uint8_t k;
    size_t len;
} trigger_printed;

/* The number of the refusal, and the length of the converted record, 0 where it is refused. */
typedef struct {
    uint8_t k;
    size_t len;
} trigger_converted;

/* What depends on a connector. */
typedef struct {
    uint8_t k;  /* 0, or 5 for a place that is no connector's. */
    uint32_t cells;  /* The cells, bit 0 of cell 1. */
    uint16_t connectors;  /* The connectors, in the order of the sample. */
} trigger_surveyed;

/* The most cards of a rack. */
#define TRIGGER_RACK 4

/* What comes in at the front of one card of a rack. */
typedef struct {
    uint8_t sample;  /* The levels at BNC1 to BNC8. */
    uint8_t attached;  /* Which of them have something attached. */
} trigger_front;

/* What comes in with a tick of a rack. */
typedef struct {
    uint8_t code;  /* The code of its clock. */
    uint8_t sample;  /* The levels at TTL0 to TTL7. */
    uint8_t attached;  /* Which of them have something attached. */
    uint8_t count;  /* How many fronts there are. */
    trigger_front fronts[TRIGGER_RACK];  /* The fronts, one for each card. */
} trigger_rackinput;

/*
 * The number of the refusal, and the answers of the cards; those past the row are idle, and with a
 * refusal all are.
 */
typedef struct {
    uint8_t k;
    trigger_answer answers[TRIGGER_RACK];
} trigger_rackticked;

/* The number of the refusal, and the length of the reply. */
typedef struct {
    uint8_t k;
    size_t len;
} trigger_replied;

#ifdef __cplusplus
extern "C" {
#endif

/*
 * Calls by pointers, on every processor. What each does is said at the call by value of the same
 * name below. A result that a pointer is given for is written also where
 * the call is refused.
 */

/* The version and the layout of the library, and how many bytes a card has there. */
uint32_t trigger_version(void);
uint32_t trigger_layout(void);
size_t trigger_card_size(void);

/*
 * A card as it first powers up: of sixteen cells, of thirty-two. The memory may hold anything
 * before.
 */
void trigger_fresh_at(trigger_card *card);
void trigger_fresh_large_at(trigger_card *card);

/* A tick of the card, and its answer. */
void trigger_full_tick_at(trigger_card *card, const trigger_input *input, trigger_answer *answer);
void trigger_quick_tick_at(trigger_card *card, const trigger_input *input, trigger_answer *answer);

/* Whether the clock may stop. */
bool trigger_at_rest_at(const trigger_card *card, const trigger_input *input);

/*
 * For how many ticks the processor may sleep, and up to k of them at once: how many were made, and
 * the answer of the last.
 */
uint32_t trigger_steady_for_at(const trigger_card *card, const trigger_input *input);
uint32_t trigger_advance_at(trigger_card *card, const trigger_input *input, uint32_t k, trigger_answer *answer);

/*
 * These give the number of the refusal. `len` is the length of what was written: of the reply, of
 * the wiring, of the converted record.
 */
uint8_t trigger_line_at(trigger_card *card, const uint8_t *text, size_t text_len, uint8_t *reply, size_t reply_len,
                        uint8_t *store, size_t store_len, size_t *len);
uint8_t trigger_load_at(trigger_card *card, const uint8_t *bytes, size_t bytes_len);
uint8_t trigger_print_at(const trigger_card *card, uint8_t *buffer, size_t buffer_len, size_t *len);
uint8_t trigger_convert_at(const uint8_t *bytes, size_t bytes_len, uint8_t *buffer, size_t buffer_len, size_t *len);

/* What depends on a connector, and the number of the refusal, which is in `surveyed` as well. */
uint8_t trigger_survey_at(const trigger_card *card, uint64_t place, trigger_surveyed *surveyed);

/* All tallies. */
void trigger_read_tallies_at(const trigger_card *card, trigger_tallies *tallies);

/*
 * A rack is a row of 1 to TRIGGER_RACK cards of sixteen cells that share one backplane, numbered
 * from 1. The calls on it change each card where it is in the row. 20 where the row is no rack,
 * where no card has the number, or where the fronts are not one for each card: then nothing is
 * changed, and a line is answered `:N-20` where the reply buffer has TRIGGER_REPLY bytes. 19 where
 * a line or a load would change the type of a front connector and the cards would then draw more
 * than 16, each at least 4 and one for each push-pull front connector. A start takes a row of cards
 * too, as trigger_fresh makes them. trigger_at_rest speaks of ticks outside a rack.
 */
uint8_t rack_start_at(trigger_card *row, size_t row_len);
uint8_t rack_tick_at(trigger_card *row, size_t row_len, bool full, const trigger_rackinput *input,
                     trigger_rackticked *ticked);
uint8_t rack_line_at(trigger_card *row, size_t row_len, size_t number, const uint8_t *text, size_t text_len,
                     uint8_t *reply, size_t reply_len, uint8_t *store, size_t store_len, size_t *len);
uint8_t rack_load_at(trigger_card *row, size_t row_len, size_t number, const uint8_t *bytes, size_t bytes_len);

/* Calls by value, on x86-64: a call takes the card and returns the card after it. */
#if defined(__x86_64__) && !defined(_WIN32)
#define TRIGGER_BY_VALUE 1

/* A card of sixteen cells as it first powers up. */
trigger_card trigger_fresh(void);

/* A card of thirty-two cells as it first powers up. */
trigger_card trigger_fresh_large(void);

/* A tick in which every cell is worked out. */
trigger_ticked trigger_full_tick(trigger_card card, trigger_input input);

/*
 * A tick in which only those cells are worked out that the waking rules name. On a card that calls
 * have made, the card after it, the driven word and the cell word are those of a full tick.
 */
trigger_ticked trigger_quick_tick(trigger_card card, trigger_input input);

/* The same ticks of a card where it is: they change it in place, and give the answer alone. */
trigger_answer trigger_full_tick_in(trigger_card *card, trigger_input input);
trigger_answer trigger_quick_tick_in(trigger_card *card, trigger_input input);

/*
 * Whether a quick tick with this input would work out no cell and leave the card as it is but for
 * the count of its ticks. Then the clock may stop until something else comes in.
 */
bool trigger_at_rest(trigger_card card, trigger_input input);

/*
 * For how many quick ticks with this input nothing changes but the counts of cells, the tallies and
 * the count of ticks, and no count comes to its end: the processor may sleep through so many ticks,
 * with the outputs as they are, unless a line, a load or another input comes. Then it makes the
 * ticks that have passed with trigger_advance and the same input. A card at rest is steady for ever
 * (TRIGGER_FOREVER); a float asks this and not trigger_at_rest, for its tallies and its count of
 * ticks stay true to time, and it sleeps through delays as well.
 */
uint32_t trigger_steady_for(trigger_card card, trigger_input input);

/*
 * Up to k quick ticks with one input at once: one, and more as long as the card is steady. `made`
 * says how many, at least 1 where k is; card and answer are those that so many quick ticks leave,
 * one after the other. With k = 0 the card is as it was, and the answer that of a tick that did not
 * run.
 */
trigger_advanced trigger_advance(trigger_card card, trigger_input input, uint32_t k);

/*
 * One line, without an ending. The reply is written to the front of its buffer, with CR LF: `:A`,
 * `:A n` or `:N-k`. A reply buffer of fewer than TRIGGER_REPLY bytes is refused with 1, and nothing
 * is written. `36SS Z` writes the record to the front of the store and is refused with 1 where the
 * store has no room for it (TRIGGER_RECORD bytes, TRIGGER_LARGE_RECORD of thirty-two cells); other
 * lines leave the store alone.
 */
trigger_answered trigger_line(trigger_card card, const uint8_t *text, size_t text_len, uint8_t *reply, size_t reply_len,
                              uint8_t *store, size_t store_len);

/*
 * The card powers up with the settings in a record and keeps its number of cells. Any bytes may be
 * given: 14 where they are not a record of TRIGGER_RECORD or TRIGGER_OLD_RECORD bytes, or of
 * TRIGGER_LARGE_RECORD for thirty-two cells; 15 where its settings are none that lines can set.
 */
trigger_loaded trigger_load(trigger_card card, const uint8_t *bytes, size_t bytes_len);

/*
 * The settings as lines, each with LF, to the front of the buffer: given to a fresh card, they set
 * the same wiring. 16 where the buffer has no room for them; it then stays as it was.
 */
trigger_printed trigger_print(trigger_card card, uint8_t *buffer, size_t buffer_len);

/*
 * A record in its other form, to the front of the buffer: the old one of a present one, also of
 * thirty-two cells where sixteen can hold it; and of an old one the present one of sixteen. 14
 * where the length is that of none of them, else 1 where the buffer has no room for the result,
 * else what a load of the record gives, else 17 where the old form has no room for a duration, else
 * 18 where a cell above 16 is set or read. Where it is refused, the buffer stays as it was.
 */
trigger_converted trigger_convert(const uint8_t *bytes, size_t bytes_len, uint8_t *buffer, size_t buffer_len);

/*
 * What depends on the connector at a place, 33 to 48: what a change of its line can reach, the
 * connector itself included unless it is push-pull. Nothing else can tell whether the line changed.
 * The words are an upper bound: what is in them need not move. Another place gives 5 and zero
 * words.
 */
trigger_surveyed trigger_survey(trigger_card card, uint64_t place);

/* All tallies: which cells cost most. */
trigger_tallies trigger_read_tallies(trigger_card card);

/* Racks. Every card of the row fresh, but with all connectors as inputs. */
uint8_t rack_start(trigger_card *row, size_t row_len);

/* A tick of all cards: all drive, then all sample, then all work out their cells. */
trigger_rackticked rack_tick(trigger_card *row, size_t row_len, bool full, trigger_rackinput input);

/* A line to the card of a number, as trigger_line. */
trigger_replied rack_line(trigger_card *row, size_t row_len, size_t number, const uint8_t *text, size_t text_len,
                          uint8_t *reply, size_t reply_len, uint8_t *store, size_t store_len);

/* A load to the card of a number, as trigger_load: its number. */
uint8_t rack_load(trigger_card *row, size_t row_len, size_t number, const uint8_t *bytes, size_t bytes_len);

#endif

#ifdef __cplusplus
}
#endif

/*
 * The type of a card's connector, by its number in the order of the sample, below
 * TRIGGER_CONNECTORS.
 */
static inline int trigger_connector_type(const trigger_card *card, unsigned connector)
{
    if (card->connectors.push_pull >> connector & 1)
        return TRIGGER_PUSH_PULL;
    return card->connectors.open_drain >> connector & 1 ? TRIGGER_OPEN_DRAIN : TRIGGER_INPUT;
}

/*
 * The names, types and offsets of all fields in one number. A program asks once at its start,
 * before its first card, whether the library that it was linked with has the version and the layout
 * of this header:
 *
 *     if (!trigger_matches())
 *         stop();
 */
#define TRIGGER_LAYOUT UINT32_C(0x7483ebba)

static inline bool trigger_matches(void)
{
    return trigger_version() == TRIGGER_VERSION && trigger_layout() == TRIGGER_LAYOUT &&
           trigger_card_size() == sizeof(trigger_card);
}

/*
 * The layout of the library, which is one for all processors but for the structs of calls by value
 * that hold a length.
 */
#ifdef __cplusplus
#define TRIGGER_CHECK(test) static_assert(test, #test)
#else
#define TRIGGER_CHECK(test) _Static_assert(test, #test)
#endif
#define TRIGGER_SIZE(type, size) TRIGGER_CHECK(sizeof(type) == (size))
#define TRIGGER_AT(type, field, at) TRIGGER_CHECK(offsetof(type, field) == (at))

TRIGGER_SIZE(bool, 1);
TRIGGER_CHECK(sizeof(size_t) == 4 || sizeof(size_t) == 8);

TRIGGER_SIZE(trigger_cell, 16);
TRIGGER_AT(trigger_cell, config, 0);
TRIGGER_AT(trigger_cell, count, 4);
TRIGGER_AT(trigger_cell, slots, 8);
TRIGGER_AT(trigger_cell, kind, 12);
TRIGGER_AT(trigger_cell, bit, 13);
TRIGGER_AT(trigger_cell, pulse, 14);

TRIGGER_SIZE(trigger_connectors, 20);
TRIGGER_AT(trigger_connectors, sources, 0);
TRIGGER_AT(trigger_connectors, push_pull, 16);
TRIGGER_AT(trigger_connectors, open_drain, 18);

TRIGGER_SIZE(trigger_memory, 20);
TRIGGER_AT(trigger_memory, driven, 0);
TRIGGER_AT(trigger_memory, pulled, 2);
TRIGGER_AT(trigger_memory, outputs, 4);
TRIGGER_AT(trigger_memory, outputs2, 8);
TRIGGER_AT(trigger_memory, outputs3, 12);
TRIGGER_AT(trigger_memory, levels, 16);
TRIGGER_AT(trigger_memory, levels2, 18);

TRIGGER_SIZE(trigger_tallies, 132);
TRIGGER_AT(trigger_tallies, cells, 0);
TRIGGER_AT(trigger_tallies, total, 128);

TRIGGER_SIZE(trigger_card, 704);
TRIGGER_AT(trigger_card, cells, 0);
TRIGGER_AT(trigger_card, connectors, 512);
TRIGGER_AT(trigger_card, edited, 536);
TRIGGER_AT(trigger_card, memory, 544);
TRIGGER_AT(trigger_card, pointer, 564);
TRIGGER_AT(trigger_card, trigger, 565);
TRIGGER_AT(trigger_card, size, 566);
TRIGGER_AT(trigger_card, tallies, 568);

TRIGGER_SIZE(trigger_input, 6);
TRIGGER_AT(trigger_input, code, 0);
TRIGGER_AT(trigger_input, sample, 2);
TRIGGER_AT(trigger_input, attached, 4);

TRIGGER_SIZE(trigger_answer, 16);
TRIGGER_AT(trigger_answer, ran, 0);
TRIGGER_AT(trigger_answer, driven, 2);
TRIGGER_AT(trigger_answer, cells, 4);
TRIGGER_AT(trigger_answer, woken, 8);
TRIGGER_AT(trigger_answer, count, 12);

TRIGGER_SIZE(trigger_ticked, 720);
TRIGGER_AT(trigger_ticked, card, 0);
TRIGGER_AT(trigger_ticked, answer, 704);

TRIGGER_SIZE(trigger_advanced, 728);
TRIGGER_AT(trigger_advanced, card, 0);
TRIGGER_AT(trigger_advanced, answer, 704);
TRIGGER_AT(trigger_advanced, made, 720);

TRIGGER_SIZE(trigger_loaded, 712);
TRIGGER_AT(trigger_loaded, card, 0);
TRIGGER_AT(trigger_loaded, k, 704);

TRIGGER_SIZE(trigger_surveyed, 12);
TRIGGER_AT(trigger_surveyed, k, 0);
TRIGGER_AT(trigger_surveyed, cells, 4);
TRIGGER_AT(trigger_surveyed, connectors, 8);

TRIGGER_SIZE(trigger_front, 2);
TRIGGER_AT(trigger_front, sample, 0);
TRIGGER_AT(trigger_front, attached, 1);

TRIGGER_SIZE(trigger_rackinput, 12);
TRIGGER_AT(trigger_rackinput, code, 0);
TRIGGER_AT(trigger_rackinput, sample, 1);
TRIGGER_AT(trigger_rackinput, attached, 2);
TRIGGER_AT(trigger_rackinput, count, 3);
TRIGGER_AT(trigger_rackinput, fronts, 4);

TRIGGER_SIZE(trigger_rackticked, 68);
TRIGGER_AT(trigger_rackticked, k, 0);
TRIGGER_AT(trigger_rackticked, answers, 4);

#ifdef TRIGGER_BY_VALUE
TRIGGER_SIZE(trigger_answered, 720);
TRIGGER_AT(trigger_answered, card, 0);
TRIGGER_AT(trigger_answered, k, 704);
TRIGGER_AT(trigger_answered, len, 712);

TRIGGER_SIZE(trigger_printed, 16);
TRIGGER_AT(trigger_printed, k, 0);
TRIGGER_AT(trigger_printed, len, 8);

TRIGGER_SIZE(trigger_converted, 16);
TRIGGER_AT(trigger_converted, k, 0);
TRIGGER_AT(trigger_converted, len, 8);

TRIGGER_SIZE(trigger_replied, 16);
TRIGGER_AT(trigger_replied, k, 0);
TRIGGER_AT(trigger_replied, len, 8);
#endif

#undef TRIGGER_AT
#undef TRIGGER_SIZE
#undef TRIGGER_CHECK

#endif
