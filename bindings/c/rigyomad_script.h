/* Scripts of tests (.wast) for C: the commands of a script, with the bytes of its modules.
 *
 * rigyomad_script_open reads a script, and rigyomad_script_free frees it. Between them each call
 * below returns one record by value, and takes no memory. Strings that it returns are those of the
 * script: they last until it is freed, and have no zero after them.
 *
 *     struct rigyomad_script script;
 *     if (rigyomad_script_open(text, size, &script, NULL, 0, &fault) == RIGYOMAD_DONE) {
 *         for (size_t i = 0; i < rigyomad_script_size(&script); i++) {
 *             struct rigyomad_command command = rigyomad_script_command(&script, i);
 *             ...
 *         }
 *         rigyomad_script_free(&script);
 *     }
 *
 * Link librigyomad.a, as for rigyomad.h. bindings/c/run_script.c runs a script over an engine. */
#ifndef RIGYOMAD_SCRIPT_H
#define RIGYOMAD_SCRIPT_H

#include "rigyomad.h"

#include <stdlib.h>

#ifdef __cplusplus
extern "C" {
#endif

/* What a command does or asserts. The comment says which members of the command are set, beside
 * type and place. */
enum rigyomad_command_type {
    RIGYOMAD_COMMAND_MODULE = 0,              /* module: it is instantiated */
    RIGYOMAD_COMMAND_MODULE_DEFINITION = 1,   /* module: it is not instantiated */
    RIGYOMAD_COMMAND_MODULE_INSTANCE = 2,     /* id, of: an instance of a definition */
    RIGYOMAD_COMMAND_REGISTER = 3,            /* text, of: a module can be imported from this name */
    RIGYOMAD_COMMAND_ACTION = 4,              /* action */
    RIGYOMAD_COMMAND_ASSERT_RETURN = 5,       /* action or module, results */
    RIGYOMAD_COMMAND_ASSERT_TRAP = 6,         /* action or module, text: it traps */
    RIGYOMAD_COMMAND_ASSERT_EXHAUSTION = 7,   /* action, text: it exhausts the stack */
    RIGYOMAD_COMMAND_ASSERT_EXCEPTION = 8,    /* action or module: it throws */
    RIGYOMAD_COMMAND_ASSERT_SUSPENSION = 9,   /* action or module, text */
    RIGYOMAD_COMMAND_ASSERT_MALFORMED = 10,   /* module, text: it cannot be read */
    RIGYOMAD_COMMAND_ASSERT_MALFORMED_CUSTOM = 11,/* module, text */
    RIGYOMAD_COMMAND_ASSERT_INVALID = 12,     /* module, text: it is not valid */
    RIGYOMAD_COMMAND_ASSERT_INVALID_CUSTOM = 13,/* module, text */
    RIGYOMAD_COMMAND_ASSERT_UNLINKABLE = 14,  /* module, text: it cannot be linked */
    RIGYOMAD_COMMAND_THREAD = 15,             /* id, of: commands up to its end */
    RIGYOMAD_COMMAND_THREAD_END = 16,         /* the end of the thread that began last */
    RIGYOMAD_COMMAND_WAIT = 17                /* id: waits for a thread to end */
};

/* The form in which a script has a module. */
enum rigyomad_module_form {
    RIGYOMAD_FORM_FIELDS = 0, /* (module (func)) */
    RIGYOMAD_FORM_BINARY = 1, /* (module binary "\00asm\01\00\00\00") */
    RIGYOMAD_FORM_QUOTE = 2   /* (module quote "(func)"), whose text may be wrong on purpose */
};

/* The type of a value. The comment says what form, first and second are. */
enum rigyomad_value_type {
    RIGYOMAD_VALUE_I32 = 0,        /* first: the bits */
    RIGYOMAD_VALUE_I64 = 1,        /* first: the bits */
    RIGYOMAD_VALUE_F32 = 2,        /* form: one of rigyomad_number; first: the bits */
    RIGYOMAD_VALUE_F64 = 3,        /* form: one of rigyomad_number; first: the bits */
    RIGYOMAD_VALUE_V128 = 4,       /* form: one of rigyomad_shape; first: the number of lane 0 */
    RIGYOMAD_VALUE_REF_NULL = 5,   /* form: one of rigyomad_reference; the type, if it is told */
    RIGYOMAD_VALUE_REF_EXTERN = 6, /* form: any, or the number of a host's reference */
    RIGYOMAD_VALUE_REF_HOST = 7,   /* likewise, of a reference that is not external */
    RIGYOMAD_VALUE_REF_FUNC = 8,   /* form: any, or the index or the id of a function */
    RIGYOMAD_VALUE_REF = 9,        /* form: one of rigyomad_reference; any reference of the type */
    RIGYOMAD_VALUE_EITHER = 10     /* first: how many values after it are the alternatives */
};

/* What a float, or a lane, has to be. */
enum rigyomad_number {
    RIGYOMAD_NUMBER_BITS = 0,      /* these bits */
    RIGYOMAD_NUMBER_CANONICAL = 1, /* nan:canonical */
    RIGYOMAD_NUMBER_ARITHMETIC = 2 /* nan:arithmetic */
};

/* The lanes of a vector. */
enum rigyomad_shape {
    RIGYOMAD_SHAPE_I8X16 = 0,
    RIGYOMAD_SHAPE_I16X8 = 1,
    RIGYOMAD_SHAPE_I32X4 = 2,
    RIGYOMAD_SHAPE_I64X2 = 3,
    RIGYOMAD_SHAPE_F32X4 = 4,
    RIGYOMAD_SHAPE_F64X2 = 5
};

/* What is said of a reference, or of its type. */
enum rigyomad_reference {
    RIGYOMAD_REFERENCE_ANY = 0,      /* nothing */
    RIGYOMAD_REFERENCE_ABSTRACT = 1, /* first: one of rigyomad_heap_type */
    RIGYOMAD_REFERENCE_SHARED = 2,   /* first: one of rigyomad_heap_type, which is shared */
    RIGYOMAD_REFERENCE_NUMBER = 3,   /* first: the number, or the index */
    RIGYOMAD_REFERENCE_ID = 4        /* an id, which rigyomad_script_value_id returns */
};

/* The abstract heap types. */
enum rigyomad_heap_type {
    RIGYOMAD_HEAP_FUNC = 0,
    RIGYOMAD_HEAP_EXTERN = 1,
    RIGYOMAD_HEAP_EXN = 2,
    RIGYOMAD_HEAP_NOEXN = 3,
    RIGYOMAD_HEAP_ANY = 4,
    RIGYOMAD_HEAP_EQ = 5,
    RIGYOMAD_HEAP_STRUCT = 6,
    RIGYOMAD_HEAP_ARRAY = 7,
    RIGYOMAD_HEAP_NOFUNC = 8,
    RIGYOMAD_HEAP_NOEXTERN = 9,
    RIGYOMAD_HEAP_NONE = 10,
    RIGYOMAD_HEAP_I31 = 11,
    RIGYOMAD_HEAP_CONT = 12,
    RIGYOMAD_HEAP_NOCONT = 13
};

/* The number of a record that is absent. */
#define RIGYOMAD_NONE UINT64_MAX

/* A script: the bytes of its records, which malloc gave. */
struct rigyomad_script {
    uint8_t *records;
    size_t size;
};

/* A string. The pointer is null if it is absent. An id is without its `$`. */
struct rigyomad_string {
    const char *bytes;
    size_t size;
};

/* A place in the text of the script. */
struct rigyomad_place {
    size_t offset; /* Bytes before it. */
    size_t line;   /* From 1; 0 if there is no place. */
    size_t column; /* In bytes, from 1; 0 if there is no place. */
};

/* A command. */
struct rigyomad_command {
    enum rigyomad_command_type type;
    struct rigyomad_place place; /* Of its keyword; of the end of a thread that of its `)`. */
    struct rigyomad_string id;   /* Of an instance or a thread. */
    struct rigyomad_string of;   /* The id of the module that it refers to. */
    struct rigyomad_string text; /* The message, or the name to register. */
    uint64_t module;             /* For rigyomad_script_module, or RIGYOMAD_NONE. */
    uint64_t action;             /* For rigyomad_script_action, or RIGYOMAD_NONE. */
    uint64_t results;            /* The first of the results, for rigyomad_script_value. */
    uint64_t result_count;
};

/* A module: its bytes, or why it has none, as rigyomad_encode and rigyomad_fault return them for
 * its text. Places are those in the text of the script. */
struct rigyomad_module {
    enum rigyomad_module_form form;
    struct rigyomad_place place;
    struct rigyomad_string id;
    size_t source_offset;          /* Where its text begins in the text of the script. */
    size_t source_size;            /* How many bytes that has. */
    struct rigyomad_string quoted; /* The text of a quoted module. */
    enum rigyomad_status status;   /* RIGYOMAD_DONE or RIGYOMAD_FAULT. */
    struct rigyomad_string bytes;  /* If it is done. */
    uint32_t number;               /* One of rigyomad_fault_kind, or 0. */
    struct rigyomad_place fault;
    size_t fault_end_offset;       /* The offset of the end of the token at fault. */
    struct rigyomad_string message;
};

/* An action: it calls a function, or reads a global. */
struct rigyomad_action {
    int is_get; /* Whether it reads a global. */
    struct rigyomad_place place;
    struct rigyomad_string module; /* If it is absent, the last instance before the action. */
    struct rigyomad_string name;   /* Of the export. */
    uint64_t arguments;            /* The first of them, for rigyomad_script_value. */
    uint64_t argument_count;
};

/* An argument, or what a result has to be: what first and second are depends on type and form. */
struct rigyomad_value {
    enum rigyomad_value_type type;
    uint32_t form;
    uint64_t first;
    uint64_t second;
};

/* A lane of a vector. */
struct rigyomad_lane {
    enum rigyomad_number form;
    uint64_t bits;
};

/* The call of the archive. It requires what those of rigyomad.h require. It writes the records in
 * the layout that crates/wast_script_records/src/lib.rt describes. */
uint32_t rigyomad_c_script(const uint8_t *text, size_t text_size, uint8_t *out, size_t out_size,
                           size_t *size, uint8_t *message, size_t message_size,
                           struct rigyomad_diagnosis *diagnosis);

/* Reads a script. RIGYOMAD_DONE: *script has its records, and rigyomad_script_free frees them.
 *
 * Otherwise there is nothing to free. RIGYOMAD_FAULT and RIGYOMAD_UTF8: the text is no script, and
 * *diagnosis and message have the error, as rigyomad_fault writes it. RIGYOMAD_MEMORY: allocation
 * failed. RIGYOMAD_SLICE: a pointer is null, or a length is more than PTRDIFF_MAX.
 *
 * A module of the script that has an error is no error of the script: its record has the error. */
static inline uint32_t rigyomad_script_open(const char *text, size_t text_size,
                                            struct rigyomad_script *script, char *message,
                                            size_t message_size,
                                            struct rigyomad_diagnosis *diagnosis) {
    uint8_t none = 0;
    const uint8_t *lent = rigyomad_lent(text, text_size);
    uint8_t *told = rigyomad_room(message, message_size, &none);
    size_t room, size = 0;
    uint32_t status;
    if (!rigyomad_is_slice(lent, text_size) || !rigyomad_is_slice(told, message_size) || !script ||
        !diagnosis) {
        return RIGYOMAD_SLICE;
    }
    script->records = NULL;
    script->size = 0;
    /* Most scripts need less. */
    room = text_size < (size_t)PTRDIFF_MAX / 16 ? 8 * text_size + 4096 : text_size;
    do {
        uint8_t *records = (uint8_t *)realloc(script->records, room);
        if (!records) {
            free(script->records);
            script->records = NULL;
            script->size = 0;
            return RIGYOMAD_MEMORY;
        }
        script->records = records;
        script->size = room;
        status = rigyomad_c_script(lent, text_size, records, room, &size, told, message_size,
                                   diagnosis);
        room = size;
    } while (status == RIGYOMAD_SHORT);
    script->size = size;
    if (status != RIGYOMAD_DONE) {
        free(script->records);
        script->records = NULL;
        script->size = 0;
    }
    return status;
}

/* Frees what rigyomad_script_open gave. It may be called twice. */
static inline void rigyomad_script_free(struct rigyomad_script *script) {
    free(script->records);
    script->records = NULL;
    script->size = 0;
}

/* The word after so many bytes, the lowest byte first. */
static inline uint64_t rigyomad_word(const uint8_t *at) {
    uint64_t word = 0;
    int i;
    for (i = 7; i >= 0; i--) {
        word = word << 8 | at[i];
    }
    return word;
}

/* The word of the header with a number. */
static inline uint64_t rigyomad_header(const struct rigyomad_script *script, size_t number) {
    return rigyomad_word(script->records + 8 * number);
}

/* The record with an index in the table whose offset is a word of the header. */
static inline const uint8_t *rigyomad_record(const struct rigyomad_script *script, size_t table,
                                             size_t words, uint64_t index) {
    return script->records + rigyomad_header(script, table) + 8 * words * index;
}

static inline struct rigyomad_string rigyomad_string_at(const struct rigyomad_script *script,
                                                        uint64_t start, uint64_t size) {
    struct rigyomad_string string = {NULL, 0};
    if (start != RIGYOMAD_NONE) {
        string.bytes = (const char *)script->records + rigyomad_header(script, 11) + start;
        string.size = (size_t)size;
    }
    return string;
}

static inline struct rigyomad_string rigyomad_string(const struct rigyomad_script *script,
                                                     const uint8_t *at) {
    return rigyomad_string_at(script, rigyomad_word(at), rigyomad_word(at + 8));
}

static inline struct rigyomad_place rigyomad_place(const uint8_t *at) {
    struct rigyomad_place place;
    place.offset = (size_t)rigyomad_word(at);
    place.line = (size_t)rigyomad_word(at + 8);
    place.column = (size_t)rigyomad_word(at + 16);
    return place;
}

/* Returns how many commands a script has. Those of a thread are between it and its end. */
static inline size_t rigyomad_script_size(const struct rigyomad_script *script) {
    return (size_t)rigyomad_header(script, 2);
}

/* Returns a command, by its index from 0 on, which is less than rigyomad_script_size. */
static inline struct rigyomad_command
rigyomad_script_command(const struct rigyomad_script *script, size_t index) {
    const uint8_t *at = rigyomad_record(script, 1, 14, index);
    struct rigyomad_command command;
    command.type = (enum rigyomad_command_type)rigyomad_word(at);
    command.place = rigyomad_place(at + 8);
    command.id = rigyomad_string(script, at + 32);
    command.of = rigyomad_string(script, at + 48);
    command.text = rigyomad_string(script, at + 64);
    command.module = rigyomad_word(at + 80);
    command.action = rigyomad_word(at + 88);
    command.results = rigyomad_word(at + 96);
    command.result_count = rigyomad_word(at + 104);
    return command;
}

/* Returns the module of a command that has one. */
static inline struct rigyomad_module rigyomad_script_module(const struct rigyomad_script *script,
                                                            uint64_t index) {
    const uint8_t *at = rigyomad_record(script, 3, 20, index);
    struct rigyomad_module module;
    module.form = (enum rigyomad_module_form)rigyomad_word(at);
    module.place = rigyomad_place(at + 8);
    module.id = rigyomad_string(script, at + 32);
    module.source_offset = (size_t)rigyomad_word(at + 48);
    module.source_size = (size_t)rigyomad_word(at + 56);
    module.quoted = rigyomad_string(script, at + 64);
    module.status = (enum rigyomad_status)rigyomad_word(at + 80);
    module.bytes = rigyomad_string(script, at + 88);
    module.number = (uint32_t)rigyomad_word(at + 104);
    module.fault = rigyomad_place(at + 112);
    module.fault_end_offset = (size_t)rigyomad_word(at + 136);
    module.message = rigyomad_string(script, at + 144);
    return module;
}

/* Returns the action of a command that has one. */
static inline struct rigyomad_action rigyomad_script_action(const struct rigyomad_script *script,
                                                            uint64_t index) {
    const uint8_t *at = rigyomad_record(script, 5, 10, index);
    struct rigyomad_action action;
    action.is_get = rigyomad_word(at) == 1;
    action.place = rigyomad_place(at + 8);
    action.module = rigyomad_string(script, at + 32);
    action.name = rigyomad_string(script, at + 48);
    action.arguments = rigyomad_word(at + 64);
    action.argument_count = rigyomad_word(at + 72);
    return action;
}

/* Returns an argument or a result. */
static inline struct rigyomad_value rigyomad_script_value(const struct rigyomad_script *script,
                                                          uint64_t index) {
    const uint8_t *at = rigyomad_record(script, 7, 4, index);
    struct rigyomad_value value;
    value.type = (enum rigyomad_value_type)rigyomad_word(at);
    value.form = (uint32_t)rigyomad_word(at + 8);
    value.first = rigyomad_word(at + 16);
    value.second = rigyomad_word(at + 24);
    return value;
}

/* Returns the id of a value of the form RIGYOMAD_REFERENCE_ID. */
static inline struct rigyomad_string
rigyomad_script_value_id(const struct rigyomad_script *script, struct rigyomad_value value) {
    return rigyomad_string_at(script, value.first, value.second);
}

/* Returns a lane of a vector, whose first lane is the member first of its value. */
static inline struct rigyomad_lane rigyomad_script_lane(const struct rigyomad_script *script,
                                                        uint64_t index) {
    const uint8_t *at = rigyomad_record(script, 9, 2, index);
    struct rigyomad_lane lane;
    lane.form = (enum rigyomad_number)rigyomad_word(at);
    lane.bits = rigyomad_word(at + 8);
    return lane;
}

#ifdef __cplusplus
}
#endif

#endif
