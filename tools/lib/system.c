/* What programs take of the kit on a processor for which the kit has no `libos_c.a`: the words of the command line, variables of the
 * environment, and the number of the last error (`os::c` of the kit). */
#include <errno.h>
#include <stddef.h>
#include <stdlib.h>
#include <string.h>
#include <unistd.h>

extern char **environ;

static char **words;
static size_t count;

/* The C library calls it before `main`, with what `main` gets. */
__attribute__((constructor)) static void keep(int given, char **all) {
    words = all;
    count = given > 0 ? (size_t)given : 0;
}

/* Copies a text without its zero, as far as it fits. Returns its size, -1 if there is no text, and -2 if it does not fit. */
static ptrdiff_t copied(const char *text, char *out, size_t room) {
    if (!text) {
        return -1;
    }
    size_t size = strlen(text);
    memcpy(out, text, size < room ? size : room);
    return size <= room ? (ptrdiff_t)size : -2;
}

ptrdiff_t rattle_arg(size_t number, char *out, size_t room) {
    return copied(number < count ? words[number] : NULL, out, room);
}

ptrdiff_t rattle_env(const char *name, char *out, size_t room) { return copied(getenv(name), out, room); }

ptrdiff_t rattle_env_at(size_t number, char *out, size_t room) {
    char **variable = environ;
    while (variable && *variable && number > 0) {
        variable++;
        number--;
    }
    return copied(variable ? *variable : NULL, out, room);
}

int rattle_errno(void) { return errno; }

void rattle_set_errno(int number) { errno = number; }
