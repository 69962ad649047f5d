/*
 * The C part of the kit's library `os`, for AArch64, which the kit has none for: what the programs
 * use of it. No proof covers these calls, here or in the kit.
 */
#include <errno.h>
#include <stddef.h>
#include <sys/types.h>

static size_t count;
static char **words;

/* The C library hands the words of the command to what runs before main. */
__attribute__((constructor)) static void keep(int argc, char **argv)
{
    count = (size_t)argc;
    words = argv;
}

/* Word i, and its length; -1 where there is none, and -2 where it does not fit. */
ssize_t rattle_arg(size_t i, char *buffer, size_t room)
{
    if (i >= count || words[i] == NULL)
        return -1;
    for (size_t n = 0;; n++) {
        if (words[i][n] == 0)
            return (ssize_t)n;
        if (n == room)
            return -2;
        buffer[n] = words[i][n];
    }
}

int rattle_errno(void)
{
    return errno;
}

void rattle_set_errno(int error)
{
    errno = error;
}
