/*
 * What a program without a C library has here: standard input and output of Linux, numbers in text,
 * and the length of a string.
 */
#ifndef BARE_H
#define BARE_H

#include <stdbool.h>
#include <stddef.h>
#include <stdint.h>

int main(int argc, char **argv);
void call_on(void (*function)(void), void *top);
_Noreturn void stop(int status);

/* Up to `room` bytes of the input; 0 at its end. */
size_t take(uint8_t *bytes, size_t room);

/* A byte of the input, or -1 at its end. */
int next(void);

/* Output, which is kept until `flush`, or the end of main. */
void put(const void *bytes, size_t len);
void put_text(const char *text);
void put_hex(uint32_t n, int digits);
void put_decimal(uint32_t n, int width);
void flush(void);

bool same(const void *bytes, size_t len, const char *text);
size_t length(const char *text);

#endif
