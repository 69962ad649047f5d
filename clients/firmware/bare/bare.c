/* bare.h on Linux, and what the compiler calls by itself. */
#include "bare.h"

long system_call(long number, long a, long b, long c);

#if defined(__x86_64__)
enum { READ = 0, WRITE = 1, EXIT = 60 };
#elif defined(__arm__)
enum { READ = 3, WRITE = 4, EXIT = 1 };
#else
enum { READ = 63, WRITE = 64, EXIT = 93 };
#endif

static uint8_t waiting[4096], block[4096];
static size_t held, taken, given;

void stop(int status)
{
    flush();
    for (;;)
        system_call(EXIT, status, 0, 0);
}

/* What the kernel leaves at the entry: the number of arguments, then the arguments. */
_Noreturn void start(long *stack);
void start(long *stack)
{
    stop(main((int)stack[0], (char **)(stack + 1)));
}

size_t take(uint8_t *bytes, size_t room)
{
    long got = system_call(READ, 0, (long)bytes, (long)room);
    return got < 0 ? 0 : (size_t)got;
}

int next(void)
{
    if (given == taken) {
        taken = take(block, sizeof block);
        given = 0;
        if (taken == 0)
            return -1;
    }
    return block[given++];
}

void flush(void)
{
    size_t at = 0;
    while (at < held) {
        long n = system_call(WRITE, 1, (long)(waiting + at), (long)(held - at));
        if (n <= 0)
            break;
        at += (size_t)n;
    }
    held = 0;
}

void put(const void *bytes, size_t len)
{
    for (size_t i = 0; i < len; i++) {
        if (held == sizeof waiting)
            flush();
        waiting[held++] = ((const uint8_t *)bytes)[i];
    }
}

size_t length(const char *text)
{
    size_t n = 0;
    while (text[n] != 0)
        n++;
    return n;
}

void put_text(const char *text)
{
    put(text, length(text));
}

void put_hex(uint32_t n, int digits)
{
    while (digits-- > 0)
        put(&"0123456789abcdef"[n >> (4 * digits) & 15], 1);
}

void put_decimal(uint32_t n, int width)
{
    char text[10];
    int at = 10;
    do
        text[--at] = (char)('0' + n % 10);
    while ((n /= 10) != 0);
    while (width-- > 10 - at)
        put(" ", 1);
    put(text + at, (size_t)(10 - at));
}

bool same(const void *bytes, size_t len, const char *text)
{
    if (len != length(text))
        return false;
    for (size_t i = 0; i < len; i++)
        if (((const uint8_t *)bytes)[i] != (uint8_t)text[i])
            return false;
    return true;
}

/*
 * The whole words of a copy, eight bytes or four where both ends are aligned to them, eight of them
 * in a turn: about what a C library does. How many bytes these are.
 */
#define COPY(word) \
    { \
        word *t = to; \
        const word *f = from; \
        for (; left >= 8 * sizeof(word); left -= 8 * sizeof(word), t += 8, f += 8) { \
            const word a = f[0], b = f[1], c = f[2], d = f[3]; \
            const word p = f[4], q = f[5], r = f[6], s = f[7]; \
            t[0] = a, t[1] = b, t[2] = c, t[3] = d; \
            t[4] = p, t[5] = q, t[6] = r, t[7] = s; \
        } \
        for (; left >= sizeof(word); left -= sizeof(word)) \
            *t++ = *f++; \
    }

static size_t copy_words(void *restrict to, const void *restrict from, size_t len)
{
    const uintptr_t ends = (uintptr_t)to | (uintptr_t)from;
    size_t left = len;
    if (ends % sizeof(uintptr_t) == 0)
        COPY(uintptr_t)
    else if (ends % sizeof(uint32_t) == 0)
        COPY(uint32_t)
    return len - left;
}

void *memcpy(void *restrict to, const void *restrict from, size_t len);
void *memcpy(void *restrict to, const void *restrict from, size_t len)
{
    for (size_t i = copy_words(to, from, len); i < len; i++)
        ((uint8_t *)to)[i] = ((const uint8_t *)from)[i];
    return to;
}

void *memmove(void *to, const void *from, size_t len);
void *memmove(void *to, const void *from, size_t len)
{
    if ((uintptr_t)to <= (uintptr_t)from || (uintptr_t)from + len <= (uintptr_t)to)
        return memcpy(to, from, len);
    for (size_t i = len; i > 0; i--)
        ((uint8_t *)to)[i - 1] = ((const uint8_t *)from)[i - 1];
    return to;
}

void *memset(void *to, int byte, size_t len);
void *memset(void *to, int byte, size_t len)
{
    for (size_t i = 0; i < len; i++)
        ((uint8_t *)to)[i] = (uint8_t)byte;
    return to;
}

/* The names that these have in the procedure call standard of Arm. */
#if defined(__arm__)
void __aeabi_memcpy(void *to, const void *from, size_t len);
void __aeabi_memcpy(void *to, const void *from, size_t len)
{
    memcpy(to, from, len);
}
void __aeabi_memcpy4(void *to, const void *from, size_t len) __attribute__((alias("__aeabi_memcpy")));
void __aeabi_memcpy8(void *to, const void *from, size_t len) __attribute__((alias("__aeabi_memcpy")));

void __aeabi_memmove(void *to, const void *from, size_t len);
void __aeabi_memmove(void *to, const void *from, size_t len)
{
    memmove(to, from, len);
}
void __aeabi_memmove4(void *to, const void *from, size_t len) __attribute__((alias("__aeabi_memmove")));
void __aeabi_memmove8(void *to, const void *from, size_t len) __attribute__((alias("__aeabi_memmove")));

void __aeabi_memset(void *to, size_t len, int byte);
void __aeabi_memset(void *to, size_t len, int byte)
{
    memset(to, byte, len);
}
void __aeabi_memset4(void *to, size_t len, int byte) __attribute__((alias("__aeabi_memset")));
void __aeabi_memset8(void *to, size_t len, int byte) __attribute__((alias("__aeabi_memset")));

void __aeabi_memclr(void *to, size_t len);
void __aeabi_memclr(void *to, size_t len)
{
    memset(to, 0, len);
}
void __aeabi_memclr4(void *to, size_t len) __attribute__((alias("__aeabi_memclr")));
void __aeabi_memclr8(void *to, size_t len) __attribute__((alias("__aeabi_memclr")));
#endif
