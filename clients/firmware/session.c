/*
 * The card through calls by pointers, for the comparison with stored sessions. Lines come in at the
 * standard input.
 *
 *     session                 answers as plrun does
 *     session SIZE FORM       runs a session as crates/gate_sessions does: SIZE is `small` or
 *                             `large`, FORM is what is printed
 *     session records         takes records in hex, as crates/gate_tables
 *
 * Before each tick it asks whether the card is at rest, which must leave the card as it was; a card
 * at rest must wake nobody. It ends with 1 where that fails.
 */
#include "bare/bare.h"
#include "trigger.h"

/* What is kept of a line; a longer line is malformed, and so is what is kept of it. */
#define LINE 240

static trigger_card card, before;
static uint8_t store[TRIGGER_LARGE_RECORD], reply[TRIGGER_REPLY], text[TRIGGER_TEXT];
static size_t store_len;
static bool ticks_only, silent, tallies_too;

static _Noreturn void fault(const char *what)
{
    put_text("FAULT: ");
    put_text(what);
    put_text("\n");
    stop(1);
}

/* The card byte by byte with its padding, which no call that takes it as const may touch. */
static void remember(void)
{
    for (size_t i = 0; i < sizeof card; i++)
        ((uint8_t *)&before)[i] = ((const uint8_t *)&card)[i];
}

static bool unchanged(void)
{
    for (size_t i = 0; i < sizeof card; i++)
        if (((const uint8_t *)&card)[i] != ((const uint8_t *)&before)[i])
            return false;
    return true;
}

static int digits_of_cells(void)
{
    return card.size == TRIGGER_LARGE ? 8 : 4;
}

/* ---- text */

static bool is(const char *word, const char *text)
{
    return same(word, length(word), text);
}

static int hex_digit(uint8_t byte)
{
    return byte >= '0' && byte <= '9' ? byte - '0' : byte >= 'a' && byte <= 'f' ? byte - 'a' + 10 : -1;
}

static bool word_at(const uint8_t *line, uint16_t *word)
{
    *word = 0;
    for (int i = 0; i < 4; i++) {
        int digit = hex_digit(line[i]);
        if (digit < 0)
            return false;
        *word = (uint16_t)(*word << 4 | digit);
    }
    return true;
}

static bool tick_line(const uint8_t *line, size_t len, trigger_input *input, bool *full)
{
    if (len != 15 || line[0] != 'T' || line[1] != ' ' || line[2] < '0' || line[2] > '9')
        return false;
    if (line[3] != ' ' || line[8] != ' ' || line[13] != ' ' || (line[14] != 'F' && line[14] != 'Q'))
        return false;
    input->code = (uint8_t)(line[2] - '0');
    *full = line[14] == 'F';
    return word_at(line + 4, &input->sample) && word_at(line + 9, &input->attached);
}

/* A line of the input, without its LF, cut at `room` bytes; -1 at the end of the input. */
static long read_line(uint8_t *line, size_t room)
{
    size_t len = 0;
    for (;;) {
        int byte = next();
        if (byte < 0)
            return -1;
        if (byte == '\n')
            return (long)len;
        if (len < room)
            line[len++] = (uint8_t)byte;
    }
}

/* ---- a session */

static void tick(const trigger_input *input, bool full)
{
    trigger_answer answer;
    remember();
    bool rests = trigger_at_rest_at(&card, input);
    if (!unchanged())
        fault("the question changed the card");
    (full ? trigger_full_tick_at : trigger_quick_tick_at)(&card, input, &answer);
    if (rests && !full && answer.woken != 0)
        fault("a card at rest woke");
    if (silent)
        return;
    if (answer.ran) {
        put_text("T ");
        put_hex(answer.driven, 4);
        put_text(" ");
        put_hex(answer.cells, digits_of_cells());
        put_text(" ");
        put_hex(answer.woken, digits_of_cells());
        put_text(" ");
        put_decimal(answer.count, 0);
    } else {
        put_text("T -");
    }
    if (ticks_only)
        put_text(trigger_at_rest_at(&card, input) ? " rest" : " on");
    put_text("\n");
}

static void load(void)
{
    uint8_t k = trigger_load_at(&card, store, store_len);
    if (silent || ticks_only)
        return;
    put_text(k == 0 ? ":A" : ":N-");
    if (k != 0)
        put_decimal(k, 0);
    put_text("\n");
}

static void put_tallies(void)
{
    trigger_tallies tallies;
    remember();
    trigger_read_tallies_at(&card, &tallies);
    if (!unchanged())
        fault("the question changed the card");
    put_decimal(tallies.total, 0);
    for (size_t i = 0; i < card.size; i++) {
        put_text(" ");
        put_decimal(tallies.cells[i], 0);
    }
    put_text("\n");
}

/*
 * The total and the tallies of the cells after `# `, one blank between them: the card is handed in
 * with these numbers.
 */
static void set_tallies(const uint8_t *line, size_t len)
{
    uint32_t numbers[1 + TRIGGER_CELLS] = {0};
    size_t k = 0;
    for (size_t i = 2; i < len; i++) {
        if (line[i] == ' ')
            k++;
        if (k > card.size)
            fault("more numbers than cells");
        if (line[i] != ' ')
            numbers[k] = numbers[k] * 10 + (uint32_t)(line[i] - '0');
    }
    card.tallies.total = numbers[0];
    for (size_t i = 0; i < TRIGGER_CELLS; i++)
        card.tallies.cells[i] = numbers[1 + i];
    put_text("ok\n");
}

static void enter(const uint8_t *line, size_t len)
{
    trigger_input input;
    bool full;
    size_t n;
    if (tallies_too && len > 0 && line[0] == '#') {
        if (len == 1)
            put_tallies();
        else
            set_tallies(line, len);
    } else if (tick_line(line, len, &input, &full)) {
        tick(&input, full);
    } else if (same(line, len, "L")) {
        load();
    } else {
        trigger_line_at(&card, line, len, reply, sizeof reply, store, store_len, &n);
        if (silent || ticks_only)
            return;
        put(reply, n < 2 ? 0 : n - 2);
        put_text("\n");
    }
}

static void run(void)
{
    uint8_t line[LINE];
    long len;
    while ((len = read_line(line, sizeof line)) >= 0)
        enter(line, (size_t)len);
}

static void put_wiring(void)
{
    size_t len;
    if (trigger_print_at(&card, text, sizeof text, &len) != 0)
        fault("the wiring has no room");
    put(text, len);
}

/* ---- surveys */

static void put_survey(uint64_t place)
{
    trigger_surveyed surveyed;
    uint8_t k = trigger_survey_at(&card, place, &surveyed);
    if (k != surveyed.k)
        fault("two numbers of one refusal");
    put_decimal((uint32_t)place, 0);
    put_text(" ");
    put_decimal(k, 0);
    put_text(" ");
    put_hex(surveyed.cells, digits_of_cells());
    put_text(" ");
    put_hex(surveyed.connectors, 4);
    put_text("\n");
}

static void put_surveys(void)
{
    static const uint16_t outside[] = {0, 1, 16, 17, 32}, beyond[] = {64, 97, 161, 225, 255, 256};
    trigger_surveyed surveyed;
    for (size_t i = 0; i < sizeof outside / sizeof outside[0]; i++)
        put_survey(outside[i]);
    for (uint64_t place = 33; place < 50; place++)
        put_survey(place);
    for (size_t i = 0; i < sizeof beyond / sizeof beyond[0]; i++)
        put_survey(beyond[i]);
    if (trigger_survey_at(&card, UINT64_C(0x100000029), &surveyed) != TRIGGER_REFUSED_PLACE)
        fault("the upper half of a place is lost");
}

/* ---- records */

/* `-`, or small hex digits, two a byte: how many bytes, or -1. */
static long bytes_in(const uint8_t *row, size_t len, uint8_t *bytes)
{
    if (same(row, len, "-"))
        return 0;
    if (len % 2 != 0 || len > 1100)
        return -1;
    for (size_t i = 0; i < len; i++)
        if (hex_digit(row[i]) < 0)
            return -1;
    for (size_t i = 0; i < len / 2; i++)
        bytes[i] = (uint8_t)(hex_digit(row[2 * i]) << 4 | hex_digit(row[2 * i + 1]));
    return (long)(len / 2);
}

static void put_bytes(const uint8_t *bytes, size_t len)
{
    for (size_t i = 0; i < len; i++)
        put_hex(bytes[i], 2);
    put_text("\n");
}

static void answer_load(const uint8_t *bytes, size_t len, bool large)
{
    size_t n;
    (large ? trigger_fresh_large_at : trigger_fresh_at)(&card);
    uint8_t k = trigger_load_at(&card, bytes, len);
    put_decimal(k, 0);
    if (k != 0) {
        put_text(" -\n");
        return;
    }
    if (trigger_line_at(&card, (const uint8_t *)"36SS Z", 6, reply, sizeof reply, store, sizeof store, &n) != 0)
        fault("no save");
    put_text(" ");
    put_bytes(store, large ? TRIGGER_LARGE_RECORD : TRIGGER_RECORD);
}

static void answer_conversion(const uint8_t *bytes, size_t len, size_t room)
{
    static uint8_t buffer[620];
    size_t n;
    uint8_t k = trigger_convert_at(bytes, len, buffer, room, &n);
    put_decimal(k, 0);
    put_text(" ");
    put_decimal((uint32_t)n, 0);
    put_text(k == 0 ? " " : " -\n");
    if (k == 0)
        put_bytes(buffer, n);
}

static void take_row(const uint8_t *row, size_t len)
{
    static uint8_t bytes[550];
    uint16_t room;
    long n = bytes_in(row, len, bytes);
    if (n >= 0) {
        answer_load(bytes, (size_t)n, false);
        return;
    }
    if (len >= 5 && len <= 1100 && row[4] == ' ' && word_at(row, &room) && room <= 620 &&
        (n = bytes_in(row + 5, len - 5, bytes)) >= 0) {
        answer_conversion(bytes, (size_t)n, room);
        return;
    }
    if (len >= 3 && len <= 1100 && same(row, 3, "32 ") && (n = bytes_in(row + 3, len - 3, bytes)) >= 0) {
        answer_load(bytes, (size_t)n, true);
        return;
    }
    put_text("?\n");
}

static void take_rows(void)
{
    static uint8_t row[1104];
    long len;
    while ((len = read_line(row, sizeof row)) >= 0)
        take_row(row, (size_t)len);
}

int main(int argc, char **argv)
{
    const char *size = argc > 1 ? argv[1] : "small", *form = argc > 2 ? argv[2] : "plrun";
    bool large = is(size, "large"), wiring = is(form, "wiring"), survey = is(form, "survey");
    if (!trigger_matches())
        fault("the library is not that of the header");
    if (is(size, "records")) {
        take_rows();
        return 0;
    }
    if (!large && !is(size, "small"))
        fault("the size is not known");
    ticks_only = is(form, "rests");
    tallies_too = is(form, "tallies");
    silent = wiring || survey;
    if (!silent && !ticks_only && !tallies_too && !is(form, "session") && !is(form, "plrun"))
        fault("the form is not known");
    (large ? trigger_fresh_large_at : trigger_fresh_at)(&card);
    store_len = large ? TRIGGER_LARGE_RECORD : TRIGGER_RECORD;
    run();
    if (wiring || is(form, "session"))
        put_wiring();
    if (survey)
        put_surveys();
    return 0;
}
