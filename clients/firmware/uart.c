/*
 * A serial line on Linux, for serial.c: the bytes of the standard input come in, and what is sent
 * is printed. The byte 16 (DLE) and a letter stand for what is no byte: `q` for a time without
 * bytes that is longer than any that was asked for, `f` for a byte that was broken on its way.
 */
#include "bare/bare.h"
#include "uart.h"

#define MARK 16

uart_event uart_wait(uint32_t most, uint8_t *byte)
{
    for (;;) {
        int next_byte = next();
        if (next_byte < 0)
            return UART_OFF;
        *byte = (uint8_t)next_byte;
        if (*byte != MARK)
            return UART_BYTE;
        if (next() == 'f')
            return UART_FAULT;
        if (most != UART_FOREVER)
            return UART_QUIET;
    }
}

void uart_send(const uint8_t *bytes, size_t len)
{
    put(bytes, len);
}

_Noreturn void uart_fail(void)
{
    put_text("the library is not that of the header\n");
    stop(1);
}
