/*
 * A serial front end of the card: it puts bytes together to a line, has the card obey it, and sends
 * the reply. float.c is the loop of the card's ticks; a float has both.
 *
 * A line ends with CR, LF, or CR LF, and each line has one reply. No line is obeyed in part: one
 * whose bytes stop coming for TIME_OUT milliseconds, or that has a byte which was broken on its
 * way, is dropped up to its end and answered as an empty line is, with `:N-2`. The rest of such a
 * line could be a line as well: `PM E=1` without its first byte moves the pointer. A line that is
 * longer than the card takes is answered `:N-2` too, once, however long it is.
 */
#include "trigger.h"
#include "uart.h"

#define LONGEST_LINE 80
#define TIME_OUT 10000

static trigger_card card;
static uint8_t record[TRIGGER_RECORD];

/* The bytes of the line so far: one more than a line may have, for the card refuses that length. */
static uint8_t line[LONGEST_LINE + 1];
static size_t line_len;

/* Whether the line is dropped, and whether the last byte was a CR, so that an LF belongs to it. */
static bool dropped, after_cr;

static void obey(void)
{
    uint8_t reply[TRIGGER_REPLY];
    size_t replied;
    if (dropped)
        line_len = 0;
    trigger_line_at(&card, line, line_len, reply, sizeof reply, record, sizeof record, &replied);
    uart_send(reply, replied);
    line_len = 0;
    dropped = false;
}

static void take(uint8_t byte)
{
    bool is_rest = byte == '\n' && after_cr;
    after_cr = byte == '\r';
    if (is_rest)
        return;
    if (byte == '\r' || byte == '\n')
        obey();
    else if (line_len < sizeof line)
        line[line_len++] = byte;
}

int main(void)
{
    if (!trigger_matches())
        uart_fail();
    trigger_fresh_at(&card);
    for (;;) {
        uint8_t byte;
        bool waits = line_len > 0 && !dropped;
        switch (uart_wait(waits ? TIME_OUT : UART_FOREVER, &byte)) {
        case UART_BYTE:
            take(byte);
            break;
        case UART_FAULT:
        case UART_QUIET:
            dropped = true;
            break;
        case UART_OFF:
            return 0;
        }
    }
}
