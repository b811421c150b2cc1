/* The C of a WebAssembly module, which tools/lib/to_c.py writes after this: its memory, traps, accesses and the operations that C does not have.
 *
 * The whole file can be compiled at once. For less time it can be compiled several times, with RIGYOMAD_PART as 0 to 7: each object
 * then has a part of the functions, and one archive or program has all of them. */
#include <float.h>
#include <setjmp.h>
#include <stddef.h>
#include <stdint.h>
#include <stdlib.h>
#include <string.h>

#if FLT_EVAL_METHOD
#error "floats must be computed in their own precision (on 32-bit x86: -msse2 -mfpmath=sse)"
#endif
#if defined(__BYTE_ORDER__) && __BYTE_ORDER__ != __ORDER_LITTLE_ENDIAN__
#error "the lowest byte of a number must be the first in memory"
#endif

typedef uint8_t u8;
typedef int8_t s8;
typedef uint16_t u16;
typedef int16_t s16;
typedef uint32_t u32;
typedef int32_t s32;
typedef uint64_t u64;
typedef int64_t s64;
typedef float f32;
typedef double f64;

#if defined(__GNUC__)
#define UNLIKELY(x) __builtin_expect(!!(x), 0)
#define COLD __attribute__((noinline, cold, noreturn))
#define MAYBE __attribute__((unused)) static inline
#else
#define UNLIKELY(x) (x)
#define COLD
#define MAYBE static inline
#endif

/* The function with a number, which other parts can call and nobody else. */
#define F(number) rigyomad_c_f##number
#if !defined(RIGYOMAD_PART)
#define IS_PART(number) 1
#define LOCAL static
#else
#define IS_PART(number) (RIGYOMAD_PART == (number))
#if defined(__ELF__) || defined(__APPLE__)
#define LOCAL __attribute__((visibility("hidden")))
#else
#define LOCAL
#endif
#endif

/* An access is tested by its base, and so many bytes follow the memory for its offset. */
#define SLACK 65536u
#define PAGE_BYTES 65536ull
#define MOST_PAGES 65535ull
/* What the allocator of the module requests first is allocated together with the memory at the start. */
#define MORE_BYTES (20 * PAGE_BYTES)

struct memory {
    u8 *data;
    u64 size; /* In bytes. */
    u64 room; /* What is allocated, without the slack. */
    jmp_buf out;
};

#define memory_grown rigyomad_c_grown
#define trapped rigyomad_c_trapped
LOCAL u32 memory_grown(struct memory *it, u32 more);
COLD LOCAL void trapped(struct memory *it);

#if IS_PART(0)
COLD LOCAL void trapped(struct memory *it) { longjmp(it->out, 1); }

static int memory_opened(struct memory *it, u64 pages) {
    it->size = pages * PAGE_BYTES;
    it->room = it->size + MORE_BYTES;
    it->data = (u8 *)malloc((size_t)(it->room + SLACK));
    if (it->data) {
        memset(it->data, 0, (size_t)it->size);
    }
    return it->data != NULL;
}

static int memory_resized(struct memory *it, u64 room) {
    u8 *data = room + SLACK <= SIZE_MAX ? (u8 *)realloc(it->data, (size_t)(room + SLACK)) : NULL;
    if (data) {
        it->data = data;
        it->room = room;
    }
    return data != NULL;
}

/* Grows the memory, and returns how many pages it had, or all bits set. Its new bytes are not cleared, because the module's allocator,
 * which alone grows it, may return memory of any content. To clear it would take most of the time of a small text. */
LOCAL u32 memory_grown(struct memory *it, u32 more) {
    u64 have = it->size / PAGE_BYTES, size = it->size + more * PAGE_BYTES, ample = it->room + it->room / 2;
    if (have + more > MOST_PAGES) {
        return ~(u32)0;
    }
    /* By half as much again, so that all copies together take time that is linear in the size. */
    if (size > it->room && !(ample > size && memory_resized(it, ample)) && !memory_resized(it, size)) {
        return ~(u32)0;
    }
    it->size = size;
    return (u32)have;
}
#endif

/* I is the instance, m the first byte of its memory, and z the size. */
#define trap(I) trapped(&(I)->memory)
#define P                     \
    u8 *m = I->memory.data;   \
    u64 z = I->memory.size;   \
    (void)m, (void)z;
#define N m = I->memory.data, z = I->memory.size;
#define K(base)                      \
    if (UNLIKELY((u64)(base) > z)) { \
        trap(I);                     \
    }
#define RANGE(at, size)                          \
    if (UNLIKELY((u64)(at) + (u64)(size) > z)) { \
        trap(I);                                 \
    }
#define COPY(to, from, size)                                \
    {                                                       \
        u32 to_ = to, from_ = from, size_ = size;           \
        RANGE(to_, size_) RANGE(from_, size_)               \
        memmove(m + to_, m + from_, size_);                 \
    }
#define FILL(to, byte, size)                        \
    {                                               \
        u32 to_ = to, byte_ = byte, size_ = size;   \
        RANGE(to_, size_)                           \
        memset(m + to_, (int)(byte_ & 255), size_); \
    }

/* Reads or stores at a base and an offset. An address has any remainder. */
#if defined(__GNUC__)
#define ACCESS(type) typedef type __attribute__((aligned(1), may_alias)) any_##type;
#define R(type, base, offset) (*(const any_##type *)(m + (base) + (offset)))
#define S(type, base, offset, it) *(any_##type *)(m + (base) + (offset)) = (any_##type)(it);
#else
#define ACCESS(type)                          \
    MAYBE type read_##type(const u8 *at) {    \
        type it;                              \
        memcpy(&it, at, sizeof it);           \
        return it;                            \
    }                                         \
    MAYBE void store_##type(u8 *at, type it) { memcpy(at, &it, sizeof it); }
#define R(type, base, offset) read_##type(m + (base) + (offset))
#define S(type, base, offset, it) store_##type(m + (base) + (offset), (type)(it));
#endif
ACCESS(u8)
ACCESS(s8)
ACCESS(u16)
ACCESS(s16)
ACCESS(u32)
ACCESS(s32)
ACCESS(u64)
ACCESS(f32)
ACCESS(f64)

#define SAME_BITS(name, from, to)      \
    MAYBE to name(from it) {           \
        to bits;                       \
        memcpy(&bits, &it, sizeof it); \
        return bits;                   \
    }
SAME_BITS(f32_of, u32, f32)
SAME_BITS(f64_of, u64, f64)
SAME_BITS(u32_of, f32, u32)
SAME_BITS(u64_of, f64, u64)

#if defined(__GNUC__)
MAYBE u64 popcnt64(u64 x) { return (u64)__builtin_popcountll(x); }
MAYBE u64 clz64(u64 x) { return x ? (u64)__builtin_clzll(x) : 64; }
MAYBE u64 ctz64(u64 x) { return x ? (u64)__builtin_ctzll(x) : 64; }
#else
MAYBE u64 popcnt64(u64 x) {
    u64 count = 0;
    for (; x; x &= x - 1) {
        count++;
    }
    return count;
}
MAYBE u64 ctz64(u64 x) { return popcnt64(~x & (x - 1)); }
MAYBE u64 clz64(u64 x) {
    u64 count = 64;
    for (; x; x >>= 1) {
        count--;
    }
    return count;
}
#endif
MAYBE u32 popcnt32(u32 x) { return (u32)popcnt64(x); }
MAYBE u32 clz32(u32 x) { return (u32)clz64(x) - 32; }
MAYBE u32 ctz32(u32 x) { return x ? (u32)ctz64(x) : 32; }
MAYBE u32 rotl32(u32 x, u32 by) { return x << (by & 31) | x >> (-by & 31); }
MAYBE u64 rotl64(u64 x, u64 by) { return x << (by & 63) | x >> (-by & 63); }
#define DIVISION(name, type, sign)                           \
    MAYBE type name##_by(struct memory *it, type x, type y) { \
        if (y == 0) {                                        \
            trapped(it);                                     \
        }                                                    \
        return x sign y;                                     \
    }
DIVISION(div32, u32, /)
DIVISION(div64, u64, /)
DIVISION(rem32, u32, %)
DIVISION(rem64, u64, %)
#define div32(I, x, y) div32_by(&(I)->memory, x, y)
#define div64(I, x, y) div64_by(&(I)->memory, x, y)
#define rem32(I, x, y) rem32_by(&(I)->memory, x, y)
#define rem64(I, x, y) rem64_by(&(I)->memory, x, y)
