/* Rigyomad for C: turns a module in the text format of WebAssembly into the bytes of the binary
 * format.
 *
 * Link librigyomad.a: cc program.c $(pkg-config --cflags --libs rigyomad) (docs/LIBRARIES.md). No
 * call keeps state: any thread may make any call at any time, but a signal handler may not. A call
 * takes memory from malloc, and frees all of it before it returns.
 *
 * Text is UTF-8 with a length in bytes, and needs no zero after it. Slices of one call must not
 * overlap. */
#ifndef RIGYOMAD_H
#define RIGYOMAD_H

#include <stddef.h>
#include <stdint.h>

#ifdef __cplusplus
extern "C" {
#endif

/* The number of these declarations. rigyomad_version() returns that of the archive. */
#define RIGYOMAD_VERSION 2

/* What a call returns. */
enum rigyomad_status {
    RIGYOMAD_DONE = 0,    /* It succeeded. */
    RIGYOMAD_SHORT = 1,   /* A slice is too short; the size that is needed is returned. */
    RIGYOMAD_FAULT = 2,   /* The module has an error, which rigyomad_fault describes. */
    RIGYOMAD_UTF8 = 3,    /* The text or the name is not UTF-8. */
    RIGYOMAD_MEMORY = 4,  /* Allocation failed. */
    RIGYOMAD_UNKNOWN = 5, /* Nothing has the name, or there is no such index space. */
    RIGYOMAD_SLICE = 6    /* A pointer is null, or a length is more than PTRDIFF_MAX. */
};

/* The index spaces (text format, indices). */
enum rigyomad_space {
    RIGYOMAD_SPACE_FUNC = 0,
    RIGYOMAD_SPACE_TABLE = 1,
    RIGYOMAD_SPACE_MEMORY = 2,
    RIGYOMAD_SPACE_GLOBAL = 3,
    RIGYOMAD_SPACE_TAG = 4,
    RIGYOMAD_SPACE_ELEM = 5,
    RIGYOMAD_SPACE_DATA = 6,
    RIGYOMAD_SPACE_TYPE = 7
};

/* The faults that have a number. E1 to E9 have a position, E11 that of the construct or the closest
 * one that is known. No text has E13, because the reader refuses a component: number 0. */
enum rigyomad_fault_kind {
    /* E1: an import comes after a definition. */
    RIGYOMAD_E1_IMPORT_AFTER = 1,
    /* E2: two items of one index space, or two locals, have the same id. */
    RIGYOMAD_E2_DUPLICATE = 2,
    /* E3: two fields of a struct have the same id. */
    RIGYOMAD_E3_DUPLICATE_FIELD = 3,
    /* E4: nothing has this name. */
    RIGYOMAD_E4_UNKNOWN = 4,
    /* E5: a type use has a type that is not a function type. */
    RIGYOMAD_E5_NOT_FUNC = 5,
    /* E6: a type index is out of bounds. */
    RIGYOMAD_E6_OUT_OF_BOUNDS = 6,
    /* E7: an inline type is not the type at the index. */
    RIGYOMAD_E7_NO_MATCH = 7,
    /* E8: the label at the end of a block is not that at its start. */
    RIGYOMAD_E8_LABELS = 8,
    /* E9: a field is accessed by name, but the type has no named fields. */
    RIGYOMAD_E9_NO_NAMED_FIELDS = 9,
    /* E10: a count or a size does not fit in 32 bits. */
    RIGYOMAD_E10_TOO_LARGE = 10,
    /* E11: an unsupported construct, which resolves but cannot be encoded. */
    RIGYOMAD_E11_UNCOVERED = 11,
    /* E12: allocation failed. */
    RIGYOMAD_E12_MEMORY = 12,
    /* E13: the module is a component, not a core module. */
    RIGYOMAD_E13_COMPONENT = 13
};

/* Returns what a status says, for a message. */
static inline const char *rigyomad_status_text(uint32_t status) {
    switch (status) {
    case RIGYOMAD_DONE:
        return "success";
    case RIGYOMAD_SHORT:
        return "a slice is too short";
    case RIGYOMAD_FAULT:
        return "the module has an error";
    case RIGYOMAD_UTF8:
        return "the text or the name is not UTF-8";
    case RIGYOMAD_MEMORY:
        return "allocation failed";
    case RIGYOMAD_UNKNOWN:
        return "nothing has the name, or there is no such index space";
    case RIGYOMAD_SLICE:
        return "a pointer is null, or a length is more than PTRDIFF_MAX";
    default:
        return "no such status";
    }
}

/* Returns the general message of an error number. rigyomad_fault writes the message for one
 * text. */
static inline const char *rigyomad_fault_text(uint32_t number) {
    switch (number) {
    case 0:
        return "the text is not a module";
    case RIGYOMAD_E1_IMPORT_AFTER:
        return "an import comes after a definition";
    case RIGYOMAD_E2_DUPLICATE:
        return "two items of one index space, or two locals, have the same id";
    case RIGYOMAD_E3_DUPLICATE_FIELD:
        return "two fields of a struct have the same id";
    case RIGYOMAD_E4_UNKNOWN:
        return "nothing has this name";
    case RIGYOMAD_E5_NOT_FUNC:
        return "a type use has a type that is not a function type";
    case RIGYOMAD_E6_OUT_OF_BOUNDS:
        return "a type index is out of bounds";
    case RIGYOMAD_E7_NO_MATCH:
        return "an inline type is not the type at the index";
    case RIGYOMAD_E8_LABELS:
        return "the label at the end of a block is not that at its start";
    case RIGYOMAD_E9_NO_NAMED_FIELDS:
        return "a field is accessed by name, but the type has no named fields";
    case RIGYOMAD_E10_TOO_LARGE:
        return "a count or a size does not fit in 32 bits";
    case RIGYOMAD_E11_UNCOVERED:
        return "an unsupported construct, which resolves but cannot be encoded";
    case RIGYOMAD_E12_MEMORY:
        return "allocation failed";
    case RIGYOMAD_E13_COMPONENT:
        return "the module is a component, not a core module";
    default:
        return "no such fault";
    }
}

/* What is wrong with a text, and where. A member that is new is the last one, so the others keep
 * their offsets. The struct is larger than that of version 1 of the declarations: compile all that
 * uses it against this header. */
struct rigyomad_diagnosis {
    uint32_t number; /* One of rigyomad_fault_kind; 0 if it is no module, or nothing is wrong. */
    size_t offset;   /* Bytes before the position; 0 if there is none. */
    size_t line;     /* From 1; 0 if there is no position, or the text is not UTF-8. */
    size_t column;   /* In bytes, from 1; 0 where line is 0. */
    size_t size;     /* How many bytes the whole message has. */
    size_t end_offset; /* Bytes before the end of the token at the position; 0 if there is none. */
};

/* A name of a text, and what it denotes. */
struct rigyomad_name {
    uint32_t space;  /* One of rigyomad_space. */
    uint32_t number; /* The index of what it denotes. */
    size_t offset;   /* Bytes of the text before its id, which begins with `$`. */
    size_t start;    /* Where the name begins among the bytes of all names. */
    size_t size;     /* How many bytes the name has, without the `$`. */
};

/* How much room names need. */
struct rigyomad_names_room {
    size_t names; /* How many names there are. */
    size_t bytes; /* How many bytes all of them have. */
};

/* The calls of the archive. They require that no pointer is null, and that each length is that of
 * its slice. Call the functions below, which check the first. */
extern const char rigyomad_c_version_text[];
uint32_t rigyomad_c_version(void);
uint32_t rigyomad_c_encode(const uint8_t *text, size_t text_size, uint8_t *out, size_t out_size,
                           size_t *size);
uint32_t rigyomad_c_fault(const uint8_t *text, size_t text_size, uint8_t *message,
                          size_t message_size, struct rigyomad_diagnosis *diagnosis);
uint32_t rigyomad_c_note(const uint8_t *text, size_t text_size, uint32_t number, uint8_t *message,
                         size_t message_size, struct rigyomad_diagnosis *diagnosis);
uint32_t rigyomad_c_width(uint32_t character);
uint32_t rigyomad_c_resolve(const uint8_t *text, size_t text_size, uint32_t space,
                            const uint8_t *name, size_t name_size, uint32_t *number);
uint32_t rigyomad_c_names(const uint8_t *text, size_t text_size, struct rigyomad_name *names,
                          size_t names_count, uint8_t *bytes, size_t bytes_size,
                          struct rigyomad_names_room *room);

/* A slice as the archive takes it: a null pointer without bytes becomes a pointer to some byte. */
static inline const uint8_t *rigyomad_lent(const void *bytes, size_t size) {
    static const uint8_t none = 0;
    return bytes || size ? (const uint8_t *)bytes : &none;
}

static inline uint8_t *rigyomad_room(void *bytes, size_t size, uint8_t *none) {
    return bytes || size ? (uint8_t *)bytes : none;
}

static inline int rigyomad_is_slice(const void *bytes, size_t size) {
    return bytes && size <= (size_t)PTRDIFF_MAX;
}

/* Returns the number of the archive's declarations: RIGYOMAD_VERSION, if header and archive fit. */
static inline uint32_t rigyomad_version(void) { return rigyomad_c_version(); }

/* Returns the version of the archive, as 0.1.0, and whether it was built without proofs: 0.1.0
 * (UNPROVED), or 0.1.0 (proved by CI, not on this machine). */
static inline const char *rigyomad_version_text(void) { return rigyomad_c_version_text; }

/* Writes the bytes of the module of a text to out, and how many they are to *size: RIGYOMAD_DONE.
 *
 * If out_size is too small, nothing is written to out, and *size is the size that is needed:
 * RIGYOMAD_SHORT. So a first call with a null out and out_size 0 returns the size. A module seldom
 * has more bytes than its text, so one call with as many bytes as the text has mostly succeeds.
 *
 * Otherwise out is unchanged, *size is 0, and RIGYOMAD_FAULT, RIGYOMAD_UTF8 or RIGYOMAD_MEMORY is
 * returned. */
static inline uint32_t rigyomad_encode(const char *text, size_t text_size, void *out,
                                       size_t out_size, size_t *size) {
    uint8_t none = 0;
    const uint8_t *lent = rigyomad_lent(text, text_size);
    uint8_t *room = rigyomad_room(out, out_size, &none);
    if (!rigyomad_is_slice(lent, text_size) || !rigyomad_is_slice(room, out_size) || !size) {
        return RIGYOMAD_SLICE;
    }
    return rigyomad_c_encode(lent, text_size, room, out_size, size);
}

/* Writes to *diagnosis why rigyomad_encode returns no bytes of a text. Writes as much of the
 * message as fits into message_size bytes at message, without a zero after it; diagnosis->size is
 * the size of the whole message.
 *
 * Returns what rigyomad_encode returns with room for all bytes: RIGYOMAD_DONE if nothing is wrong.
 * If the text is not UTF-8, the position has an offset and no line. */
static inline uint32_t rigyomad_fault(const char *text, size_t text_size, char *message,
                                      size_t message_size, struct rigyomad_diagnosis *diagnosis) {
    uint8_t none = 0;
    const uint8_t *lent = rigyomad_lent(text, text_size);
    uint8_t *room = rigyomad_room(message, message_size, &none);
    if (!rigyomad_is_slice(lent, text_size) || !rigyomad_is_slice(room, message_size) ||
        !diagnosis) {
        return RIGYOMAD_SLICE;
    }
    return rigyomad_c_fault(lent, text_size, room, message_size, diagnosis);
}

/* Writes a note of the error that rigyomad_fault describes: a second place of the text, or a
 * suggestion. Notes have the numbers from 0 on. Writes to *diagnosis and message as rigyomad_fault
 * does, with the range and the message of the note, and returns RIGYOMAD_DONE.
 *
 * Of (module (func $f) (func $f)) the note 0 is "first defined here", from offset 14 to 16.
 *
 * If the error has no note with this number, or the text has no error, all of *diagnosis is 0, and
 * RIGYOMAD_UNKNOWN is returned; otherwise it is RIGYOMAD_UTF8 or RIGYOMAD_MEMORY. */
static inline uint32_t rigyomad_note(const char *text, size_t text_size, uint32_t number,
                                     char *message, size_t message_size,
                                     struct rigyomad_diagnosis *diagnosis) {
    uint8_t none = 0;
    const uint8_t *lent = rigyomad_lent(text, text_size);
    uint8_t *room = rigyomad_room(message, message_size, &none);
    if (!rigyomad_is_slice(lent, text_size) || !rigyomad_is_slice(room, message_size) ||
        !diagnosis) {
        return RIGYOMAD_SLICE;
    }
    return rigyomad_c_note(lent, text_size, number, room, message_size, diagnosis);
}

/* Returns how many columns a terminal shows of a character of Unicode, such as 2 of U+4E2D, and 0
 * of an accent such as U+0301. It is 1 of a control character. */
static inline uint32_t rigyomad_width(uint32_t character) { return rigyomad_c_width(character); }

/* Writes the index of what a name, without its `$`, denotes in an index space of the module of a
 * text to *number: RIGYOMAD_DONE. It reads the whole text; for several names of one text,
 * rigyomad_names reads it once.
 *
 * Otherwise *number is unchanged, and RIGYOMAD_UNKNOWN, RIGYOMAD_FAULT (the names of the module do
 * not resolve), RIGYOMAD_UTF8 or RIGYOMAD_MEMORY is returned. */
static inline uint32_t rigyomad_resolve(const char *text, size_t text_size,
                                        enum rigyomad_space space, const char *name,
                                        size_t name_size, uint32_t *number) {
    const uint8_t *lent = rigyomad_lent(text, text_size);
    const uint8_t *lent_name = rigyomad_lent(name, name_size);
    if (!rigyomad_is_slice(lent, text_size) || !rigyomad_is_slice(lent_name, name_size) ||
        !number) {
        return RIGYOMAD_SLICE;
    }
    return rigyomad_c_resolve(lent, text_size, (uint32_t)space, lent_name, name_size, number);
}

/* Writes all names that the items of the index spaces of the module of a text have: a record of
 * each to names, and the bytes of the names one after another to bytes. It writes to *room how many
 * names there are, and how many bytes: RIGYOMAD_DONE. The records are in the order of their spaces,
 * then of their indices.
 *
 * Of (module (type $t (func)) (func) (func $"a b")) the records are { 0, 1, 38, 0, 3 } and
 * { 7, 0, 14, 3, 1 }, and the bytes are "a bt".
 *
 * If names_count or bytes_size is too small, both slices are unchanged, and *room is the room that
 * is needed: RIGYOMAD_SHORT. No text has more names than an eighth of its bytes, nor more bytes of
 * names than bytes.
 *
 * Otherwise both slices are unchanged, *room is all 0, and RIGYOMAD_FAULT (the names of the module
 * do not resolve), RIGYOMAD_UTF8 or RIGYOMAD_MEMORY is returned. */
static inline uint32_t rigyomad_names(const char *text, size_t text_size,
                                      struct rigyomad_name *names, size_t names_count, char *bytes,
                                      size_t bytes_size, struct rigyomad_names_room *room) {
    uint8_t none = 0;
    struct rigyomad_name no_name = {0, 0, 0, 0, 0};
    const uint8_t *lent = rigyomad_lent(text, text_size);
    uint8_t *bytes_out = rigyomad_room(bytes, bytes_size, &none);
    struct rigyomad_name *names_out = names || names_count ? names : &no_name;
    int are_names = names_out && names_count <= (size_t)PTRDIFF_MAX / sizeof *names_out;
    if (!rigyomad_is_slice(lent, text_size) || !rigyomad_is_slice(bytes_out, bytes_size) ||
        !are_names || !room) {
        return RIGYOMAD_SLICE;
    }
    return rigyomad_c_names(lent, text_size, names_out, names_count, bytes_out, bytes_size, room);
}

#ifdef __cplusplus
}
#endif

#endif
