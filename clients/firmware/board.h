/*
 * What a float's loop needs of its board. A port to a processor has these few functions; board.c
 * has them for Linux, by a script at the standard input.
 */
#ifndef BOARD_H
#define BOARD_H

#include <stdbool.h>
#include <stddef.h>
#include <stdint.h>

/*
 * What woke the processor: the ticks that it waited for, a line that has come in, a change of a
 * level or of a cable, or nothing more, where the float is switched off.
 */
typedef enum { BOARD_TICK, BOARD_LINE, BOARD_CHANGE, BOARD_OFF } board_event;

/*
 * Sleeps until one of them, at the latest until `most` ticks of the card's clock have come, 1 or
 * more. `ticks` is how many have come since the last call: levels and cables were the same in all
 * of them. A counter that runs on while the processor sleeps gives that number.
 */
board_event board_wait(uint32_t most, uint32_t *ticks);

/*
 * The levels at the connectors, bits 0-7 BNC1-8 and 8-15 TTL0-7, and which have something attached.
 */
uint16_t board_levels(void);
uint16_t board_attached(void);

/* Sets the outputs. */
void board_drive(uint16_t driven);

/* The line that has come in, without its ending, and the way back for its reply. */
size_t board_line(uint8_t *line, size_t room);
void board_reply(const uint8_t *reply, size_t len);

/*
 * The record in the memory that outlives a power-down: how many bytes of it were read, 0 where
 * there is none; and written.
 */
size_t board_read_record(uint8_t *record, size_t room);
void board_write_record(const uint8_t *record, size_t len);

/* The float does not start. */
_Noreturn void board_fail(void);

#endif
