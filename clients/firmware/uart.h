/*
 * What a serial front end needs of its processor. A port has these few functions; uart.c has them
 * for Linux, by a script at the standard input.
 */
#ifndef UART_H
#define UART_H

#include <stddef.h>
#include <stdint.h>

/*
 * What has come: a byte; a byte that was lost or broken on its way (overrun, framing or parity, as
 * the receiver reports it); no byte in the time; or nothing more, where the line is switched off.
 */
typedef enum { UART_BYTE, UART_FAULT, UART_QUIET, UART_OFF } uart_event;

/* Waits for a byte: at most so many milliseconds, or for ever where this is UART_FOREVER. */
#define UART_FOREVER UINT32_MAX
uart_event uart_wait(uint32_t most, uint8_t *byte);

/* Sends bytes, and comes back when all are with the sender. */
void uart_send(const uint8_t *bytes, size_t len);

/* The front end does not start. */
_Noreturn void uart_fail(void);

#endif
