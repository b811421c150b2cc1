/* Calls each function on a thread with a small stack, for each line of standard input as a text:
 * stack. It prints how many bytes of the stack were used, and a fault ends it by a signal. */
#define _DEFAULT_SOURCE
#include "rigyomad.h"

#include <pthread.h>
#include <stdio.h>
#include <stdlib.h>
#include <string.h>
#include <sys/mman.h>

/* The stack of the thread, which docs/LIBRARIES.md promises to be enough. */
enum { STACK = 24 << 10 };

/* What is below the stack, and ends the program if it is touched: more than the largest frame, so
 * that no frame skips it. */
enum { GUARD = 1 << 20 };

/* A byte that an unused stack has. */
enum { UNUSED = 0xa5 };

/* A text, and room for what the calls return: not on the stack. */
enum { MOST = 1 << 20, NAMES = 1 << 10 };
static char text[MOST], bytes[MOST];
static struct rigyomad_name names[NAMES];

/* Calls each function on the text. */
static void *call_each(void *given) {
    size_t size = *(const size_t *)given, written;
    struct rigyomad_diagnosis at;
    struct rigyomad_names_room room;
    uint32_t number;
    rigyomad_encode(text, size, bytes, sizeof bytes, &written);
    rigyomad_fault(text, size, bytes, sizeof bytes, &at);
    rigyomad_resolve(text, size, RIGYOMAD_SPACE_FUNC, "f", 1, &number);
    rigyomad_names(text, size, names, NAMES, bytes, sizeof bytes, &room);
    return NULL;
}

/* Ends the program if a call of the system failed. */
static void expect(int is_so, const char *what) {
    if (!is_so) {
        perror(what);
        exit(2);
    }
}

/* Calls each function on the text, on a thread of its own. */
static void call_on(char *stack, size_t size) {
    pthread_t thread;
    pthread_attr_t attributes;
    expect(pthread_attr_init(&attributes) == 0, "attributes");
    expect(pthread_attr_setstack(&attributes, stack, STACK) == 0, "stack");
    expect(pthread_create(&thread, &attributes, call_each, &size) == 0, "thread");
    expect(pthread_join(thread, NULL) == 0, "join");
    pthread_attr_destroy(&attributes);
}

/* How many bytes of a stack were used: it grows downwards. */
static size_t used_of(const char *stack) {
    size_t unused = 0;
    while (unused < STACK && (unsigned char)stack[unused] == UNUSED) {
        unused++;
    }
    return STACK - unused;
}

int main(void) {
    char *low = mmap(NULL, GUARD + STACK, PROT_NONE, MAP_PRIVATE | MAP_ANONYMOUS, -1, 0);
    expect(low != MAP_FAILED, "memory");
    char *stack = low + GUARD;
    expect(mprotect(stack, STACK, PROT_READ | PROT_WRITE) == 0, "memory");
    memset(stack, UNUSED, STACK);
    while (fgets(text, sizeof text, stdin)) {
        call_on(stack, strcspn(text, "\n"));
    }
    printf("%zu of %d bytes\n", used_of(stack), (int)STACK);
    return 0;
}
