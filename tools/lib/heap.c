/* What the archive takes of the kit on a processor for which the kit has no `liblibc_c.a`: memory, by the functions of C
 * (`libc::heap` of the kit). Without headers, so that a compiler without a C library compiles it. */
typedef __SIZE_TYPE__ size_t;

void *malloc(size_t size);
void *realloc(void *memory, size_t size);
void free(void *memory);

/* Whether there is memory, and where. If there is none, the address is that of some byte. */
struct tried {
    size_t is_there;
    void *memory;
};

static struct tried tried(void *memory) {
    static char none;
    struct tried result = {memory != 0, memory ? memory : &none};
    return result;
}

struct tried rattle_alloc(size_t size, size_t align) { return tried(malloc(size ? size : align)); }

struct tried rattle_realloc(void *memory, size_t old, size_t size, size_t align) {
    (void)old;
    return tried(realloc(memory, size ? size : align));
}

void rattle_dealloc(void *memory) { free(memory); }
