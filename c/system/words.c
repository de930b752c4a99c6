/* The calls for the command line, the environment and errors that the program makes of the Rattle kit's C archive
 * libos_c.a. These stand for it where the kit has no archive, on aarch64, and in static programs. The kit says what
 * each does in rattle/os/src/c.rt. A check compares them with the kit's own on x86-64. */
#include <errno.h>
#include <stddef.h>
#include <stdlib.h>

extern char **environ;

/* As the kit's: the number of the last error of this thread, and setting it. */
int rattle_errno(void) { return errno; }
void rattle_set_errno(int error) { errno = error; }

/* Copies a text, without its final 0, to `room` bytes at `to`, and answers its length. -1: there is no text. -2: it is
 * longer than `room`, and `to` is full. This is how the kit's calls below answer. */
static ptrdiff_t put(const char *text, unsigned char *to, size_t room) {
    size_t length = 0;
    if (!text) return -1;
    for (; text[length]; length++) {
        if (length == room) return -2;
        to[length] = (unsigned char)text[length];
    }
    return (ptrdiff_t)length;
}

static size_t count;
static char **words;

/* As the kit's: glibc hands each constructor the words of the command line. */
static void keep(int given, char **first) {
    count = (size_t)given;
    words = first;
}
__attribute__((section(".init_array"), used)) static void (*const at_start)(int, char **) = keep;

/* As the kit's: the number of words, the program's name among them. */
size_t rattle_arg_count(void) { return count; }

/* As the kit's: word `i`. */
ptrdiff_t rattle_arg(size_t i, unsigned char *to, size_t room) { return put(i < count ? words[i] : NULL, to, room); }

/* As the kit's: the value of a variable. */
ptrdiff_t rattle_env(const char *name, unsigned char *to, size_t room) { return put(getenv(name), to, room); }

/* As the kit's: entry `i` of the environment, NAME=VALUE. */
ptrdiff_t rattle_env_at(size_t i, unsigned char *to, size_t room) {
    char **entry = environ;
    while (entry && *entry && i--) entry++;
    return put(entry ? *entry : NULL, to, room);
}
