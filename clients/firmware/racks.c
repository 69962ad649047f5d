/*
 * Racks through calls by pointers, for the comparison with stored output.
 *
 *     racks               two cards hand a pulse over the backplane, and it prints what clients/c/rack.c prints
 *     racks sessions      a stored session of racks comes in at the standard input, a call in
 *                         each line, and each is answered as stored in crates/plrack: rack N [32],
 *                         start, load NUMBER HEX, line NUMBER ROOM TEXT, tick CODE F|Q and a sample
 *                         and what is attached in hex, of the backplane and of each front
 */
#include "bare/bare.h"
#include "trigger.h"

#define MOST 5

static trigger_card row[MOST];
static size_t row_len;
static uint8_t reply[80], store[TRIGGER_RECORD];

static _Noreturn void fault(const char *what)
{
    put_text("FAULT: ");
    put_text(what);
    put_text("\n");
    stop(1);
}

static void put_answer(const trigger_answer *answer)
{
    if (!answer->ran) {
        put_text("T -");
        return;
    }
    put_text("T ");
    put_hex(answer->driven, 4);
    put_text(" ");
    put_hex(answer->cells, 4);
    put_text(" ");
    put_hex(answer->woken, 4);
    put_text(" ");
    put_decimal(answer->count, 0);
}

/* A reply without its ending; `-` where there is none. */
static void put_reply(size_t len)
{
    if (len < 2)
        put_text("-");
    else
        put(reply, len - 2);
    put_text("\n");
}

/* ---- the example */

static void wire(size_t number, const char *text)
{
    size_t len;
    rack_line_at(row, row_len, number, (const uint8_t *)text, length(text), reply, TRIGGER_REPLY, store, 0, &len);
    put_decimal((uint32_t)number, 0);
    put_text(" ");
    put_text(text);
    put_text(": ");
    put_reply(len);
}

static void hand_over(void)
{
    static const char *const first[] = {"36CCA Y=14", "36CCA Z=2", "36CCB X=33 Y=192",
                                        "M E=41",     "36CCA Y=1", "36CCA Z=65"};
    static const char *const second[] = {"36CCA Y=14", "36CCA Z=3", "36CCB X=233 Y=192",
                                         "M E=35",     "36CCA Y=2", "36CCA Z=1"};
    static const uint8_t bnc1[] = {0, 0, 1, 0, 0, 0, 0, 0};
    row_len = 2;
    if (rack_start_at(row, row_len) != 0)
        fault("no rack");
    for (size_t i = 0; i < sizeof first / sizeof first[0]; i++)
        wire(1, first[i]);
    for (size_t i = 0; i < sizeof second / sizeof second[0]; i++)
        wire(2, second[i]);
    for (size_t i = 0; i < sizeof bnc1; i++) {
        const trigger_rackinput input = {0, 0xff, 0xff, 2, {{bnc1[i], 0xff}, {0, 0xff}, {0, 0xff}, {0, 0xff}}};
        trigger_rackticked ticked;
        if (rack_tick_at(row, row_len, false, &input, &ticked) != 0)
            fault("no rack");
        put_answer(&ticked.answers[0]);
        put_text("; ");
        put_answer(&ticked.answers[1]);
        put_text("\n");
    }
}

/* ---- stored sessions */

typedef struct {
    const uint8_t *at;
    size_t left;
} words;

/* The next word of a call, up to a blank or the end. */
static words word(words *call)
{
    words w = {call->at, 0};
    while (w.left < call->left && w.at[w.left] != ' ')
        w.left++;
    call->at += w.left < call->left ? w.left + 1 : w.left;
    call->left -= w.left < call->left ? w.left + 1 : w.left;
    return w;
}

static uint32_t number(words *call)
{
    words w = word(call);
    uint32_t n = 0;
    for (size_t i = 0; i < w.left; i++) {
        if (w.at[i] < '0' || w.at[i] > '9')
            fault("no number");
        n = n * 10 + (uint32_t)(w.at[i] - '0');
    }
    return n;
}

static uint8_t digit(uint8_t byte)
{
    if (byte >= '0' && byte <= '9')
        return (uint8_t)(byte - '0');
    if (byte < 'a' || byte > 'f')
        fault("no hex digit");
    return (uint8_t)(byte - 'a' + 10);
}

static uint8_t byte_at(const uint8_t *hex)
{
    return (uint8_t)(digit(hex[0]) << 4 | digit(hex[1]));
}

static void new_row(words *call)
{
    row_len = number(call);
    if (row_len > MOST)
        fault("a longer row");
    for (size_t i = 0; i < row_len; i++)
        trigger_fresh_at(&row[i]);
    if (call->left > 0 && number(call) == TRIGGER_LARGE)
        trigger_fresh_large_at(&row[row_len - 1]);
    put_text("ok\n");
}

static void put_number(uint8_t k)
{
    put_decimal(k, 0);
    put_text("\n");
}

static void load(words *call)
{
    static uint8_t bytes[TRIGGER_LARGE_RECORD];
    const size_t to = number(call);
    const words hex = word(call);
    const size_t len = hex.left / 2;
    if (len > sizeof bytes)
        fault("a longer record");
    for (size_t i = 0; i < len; i++)
        bytes[i] = byte_at(hex.at + 2 * i);
    put_number(rack_load_at(row, row_len, to, bytes, len));
}

static void line(words *call)
{
    const size_t to = number(call), room = number(call);
    size_t len;
    if (room > sizeof reply)
        fault("a longer reply");
    const uint8_t k = rack_line_at(row, row_len, to, call->at, call->left, reply, room, store, sizeof store, &len);
    put_decimal(k, 0);
    put_text(" ");
    put_decimal((uint32_t)len, 0);
    put_text(" ");
    put_reply(len);
}

/* A sample and what is attached; more fronts than a rack has are counted, and not kept. */
static void tick(words *call)
{
    trigger_rackinput input = {0, 0, 0, 0, {{0, 0}, {0, 0}, {0, 0}, {0, 0}}};
    trigger_rackticked ticked;
    input.code = (uint8_t)number(call);
    const bool full = *word(call).at == 'F';
    input.sample = byte_at(word(call).at);
    input.attached = byte_at(word(call).at);
    for (; call->left > 0; input.count++) {
        trigger_front front;
        front.sample = byte_at(word(call).at);
        front.attached = byte_at(word(call).at);
        if (input.count < TRIGGER_RACK)
            input.fronts[input.count] = front;
    }
    const uint8_t k = rack_tick_at(row, row_len, full, &input, &ticked);
    if (k != ticked.k)
        fault("two numbers of one refusal");
    put_decimal(k, 0);
    for (size_t i = 0; k == 0 && i < row_len; i++) {
        put_text(";");
        put_answer(&ticked.answers[i]);
    }
    put_text("\n");
}

static void obey(words call)
{
    const words name = word(&call);
    if (same(name.at, name.left, "rack"))
        new_row(&call);
    else if (same(name.at, name.left, "start"))
        put_number(rack_start_at(row, row_len));
    else if (same(name.at, name.left, "load"))
        load(&call);
    else if (same(name.at, name.left, "line"))
        line(&call);
    else if (same(name.at, name.left, "tick"))
        tick(&call);
    else
        fault("no such call");
}

static void sessions(void)
{
    static uint8_t text[1200];
    size_t len = 0;
    int byte;
    while ((byte = next()) >= 0) {
        if (byte == '\n') {
            obey((words){text, len});
            len = 0;
        } else if (len == sizeof text) {
            fault("a longer line");
        } else {
            text[len++] = (uint8_t)byte;
        }
    }
}

int main(int argc, char **argv)
{
    if (!trigger_matches())
        fault("the library is not that of the header");
    for (size_t i = 0; i < MOST; i++)
        trigger_fresh_at(&row[i]);
    if (argc > 1 && same(argv[1], length(argv[1]), "sessions"))
        sessions();
    else
        hand_over();
    return 0;
}
