/* What the archive takes from its surroundings, for WebAssembly: memory, by the allocator dlmalloc.
 * `tools/build wasm` compiles it with the folder of dlmalloc.c among the include folders, and
 * VERSION_TEXT as the version, and IS_PROVED as 1 if the archive is proved and as 0 if not.
 * JavaScript takes and returns buffers by rigyomad_take and rigyomad_give. */
#include <stddef.h>

void *memcpy(void *, const void *, size_t);
void *memset(void *, int, size_t);
static void *more(ptrdiff_t);

/* dlmalloc without locks, files, messages and mappings: it takes memory from `more` alone. */
#define LACKS_ERRNO_H
#define LACKS_FCNTL_H
#define LACKS_SCHED_H
#define LACKS_STDLIB_H
#define LACKS_STRINGS_H
#define LACKS_STRING_H
#define LACKS_SYS_MMAN_H
#define LACKS_SYS_PARAM_H
#define LACKS_SYS_TYPES_H
#define LACKS_TIME_H
#define LACKS_UNISTD_H
#define EINVAL 22
#define ENOMEM 12
#define ABORT __builtin_trap()
#define HAVE_MMAP 0
#define MALLOC_ALIGNMENT 16
#define MALLOC_FAILURE_ACTION
#define MORECORE more
#define MORECORE_CANNOT_TRIM 1
#define NO_MALLINFO 1
#define NO_MALLOC_STATS 1
#define USE_DL_PREFIX 1
#define USE_LOCKS 0
#define DEFAULT_GRANULARITY (1ul << 20)
#define malloc_getpagesize PAGE
#define PAGE 65536ul
#define DLMALLOC_EXPORT static
#include "dlmalloc.c"

extern char __heap_base;

/* Memory has at most 4 GiB, because the lowered module has a memory of 32 bits. */
#define MOST ((1ul << 32) - PAGE)

static size_t bytes_of_memory(void) { return __builtin_wasm_memory_size(0) * PAGE; }

/* Appends bytes to what dlmalloc has, as `sbrk` does. Whether memory grew is read from its size,
 * because the result of `memory.grow` is not that of a failure after lowering. */
static void *more(ptrdiff_t size) {
    static size_t end;
    if (!end) {
        end = ((size_t)&__heap_base + 15) & ~15ul;
    }
    if (size < 0 || (size_t)size > MOST || end + size > MOST) {
        return (void *)-1;
    }
    size_t start = end, have = bytes_of_memory();
    if (start + size > have) {
        __builtin_wasm_memory_grow(0, (start + size - have + PAGE - 1) / PAGE);
        if (bytes_of_memory() < start + size) {
            return (void *)-1;
        }
    }
    end = start + size;
    return (void *)start;
}

/* What the archive calls: whether there is memory, and where. */
struct given {
    size_t is_given;
    void *at;
};

static struct given given(void *at) {
    struct given it = {at != 0, at ? at : (void *)1};
    return it;
}

struct given rattle_alloc(size_t size, size_t alignment) {
    (void)alignment;
    return given(dlmalloc(size));
}

struct given rattle_realloc(void *at, size_t old, size_t size, size_t alignment) {
    (void)old, (void)alignment;
    return given(dlrealloc(at, size));
}

void rattle_dealloc(void *at) { dlfree(at); }

/* What JavaScript calls. */
void *rigyomad_take(size_t size) { return dlmalloc(size); }
void rigyomad_give(void *at) { dlfree(at); }
const char *rigyomad_version_text(void) { return VERSION_TEXT; }
int rigyomad_is_proved(void) { return IS_PROVED; }

/* Functions of memory, which instructions of WebAssembly do. The compiler may call them. */
void *memcpy(void *to, const void *from, size_t size) { return __builtin_memcpy(to, from, size); }
void *memmove(void *to, const void *from, size_t size) { return __builtin_memmove(to, from, size); }
void *memset(void *to, int byte, size_t size) { return __builtin_memset(to, byte, size); }
int memcmp(const void *one, const void *other, size_t size) {
    const unsigned char *a = one, *b = other;
    for (; size; size--, a++, b++) {
        if (*a != *b) {
            return *a - *b;
        }
    }
    return 0;
}
int bcmp(const void *one, const void *other, size_t size) { return memcmp(one, other, size); }
