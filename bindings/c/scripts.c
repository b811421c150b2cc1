/* Prints the commands of scripts, a line of each: scripts TEXT.. For example
 *
 *     1:2@1 assert_return [1:17@16 invoke $m "f" i32:1] i32:7
 *
 * A place is line, column and offset, and that of an error also has the length of its token after a
 * `+`. Bytes are hexadecimal, and so are the bits of floats. A text that is no script has one line,
 * its error. The status is that of the first call that does not succeed for another reason. */
#include "escapes.h"
#include "rigyomad_script.h"

#include <inttypes.h>
#include <stdlib.h>

/* The words of numbers, by their names in the header. */
static const char *const TYPES[] = {
    [RIGYOMAD_COMMAND_MODULE] = "module",
    [RIGYOMAD_COMMAND_MODULE_DEFINITION] = "definition",
    [RIGYOMAD_COMMAND_MODULE_INSTANCE] = "instance",
    [RIGYOMAD_COMMAND_REGISTER] = "register",
    [RIGYOMAD_COMMAND_ACTION] = "action",
    [RIGYOMAD_COMMAND_ASSERT_RETURN] = "assert_return",
    [RIGYOMAD_COMMAND_ASSERT_TRAP] = "assert_trap",
    [RIGYOMAD_COMMAND_ASSERT_EXHAUSTION] = "assert_exhaustion",
    [RIGYOMAD_COMMAND_ASSERT_EXCEPTION] = "assert_exception",
    [RIGYOMAD_COMMAND_ASSERT_SUSPENSION] = "assert_suspension",
    [RIGYOMAD_COMMAND_ASSERT_MALFORMED] = "assert_malformed",
    [RIGYOMAD_COMMAND_ASSERT_MALFORMED_CUSTOM] = "assert_malformed_custom",
    [RIGYOMAD_COMMAND_ASSERT_INVALID] = "assert_invalid",
    [RIGYOMAD_COMMAND_ASSERT_INVALID_CUSTOM] = "assert_invalid_custom",
    [RIGYOMAD_COMMAND_ASSERT_UNLINKABLE] = "assert_unlinkable",
    [RIGYOMAD_COMMAND_THREAD] = "thread",
    [RIGYOMAD_COMMAND_THREAD_END] = "end",
    [RIGYOMAD_COMMAND_WAIT] = "wait",
};
static const char *const FORMS[] = {
    [RIGYOMAD_FORM_FIELDS] = "fields",
    [RIGYOMAD_FORM_BINARY] = "binary",
    [RIGYOMAD_FORM_QUOTE] = "quote",
};
static const char *const VALUES[] = {
    [RIGYOMAD_VALUE_I32] = "i32",
    [RIGYOMAD_VALUE_I64] = "i64",
    [RIGYOMAD_VALUE_F32] = "f32",
    [RIGYOMAD_VALUE_F64] = "f64",
    [RIGYOMAD_VALUE_V128] = "v128",
    [RIGYOMAD_VALUE_REF_NULL] = "ref.null",
    [RIGYOMAD_VALUE_REF_EXTERN] = "ref.extern",
    [RIGYOMAD_VALUE_REF_HOST] = "ref.host",
    [RIGYOMAD_VALUE_REF_FUNC] = "ref.func",
    [RIGYOMAD_VALUE_REF] = "ref",
    [RIGYOMAD_VALUE_EITHER] = "either",
};
static const char *const SHAPES[] = {
    [RIGYOMAD_SHAPE_I8X16] = "i8x16", [RIGYOMAD_SHAPE_I16X8] = "i16x8",
    [RIGYOMAD_SHAPE_I32X4] = "i32x4", [RIGYOMAD_SHAPE_I64X2] = "i64x2",
    [RIGYOMAD_SHAPE_F32X4] = "f32x4", [RIGYOMAD_SHAPE_F64X2] = "f64x2",
};
static const char *const HEAPS[] = {
    [RIGYOMAD_HEAP_FUNC] = "func",     [RIGYOMAD_HEAP_EXTERN] = "extern",
    [RIGYOMAD_HEAP_EXN] = "exn",       [RIGYOMAD_HEAP_NOEXN] = "noexn",
    [RIGYOMAD_HEAP_ANY] = "any",       [RIGYOMAD_HEAP_EQ] = "eq",
    [RIGYOMAD_HEAP_STRUCT] = "struct", [RIGYOMAD_HEAP_ARRAY] = "array",
    [RIGYOMAD_HEAP_NOFUNC] = "nofunc", [RIGYOMAD_HEAP_NOEXTERN] = "noextern",
    [RIGYOMAD_HEAP_NONE] = "none",     [RIGYOMAD_HEAP_I31] = "i31",
    [RIGYOMAD_HEAP_CONT] = "cont",     [RIGYOMAD_HEAP_NOCONT] = "nocont",
};
static const char *const NUMBERS[] = {
    [RIGYOMAD_NUMBER_CANONICAL] = "nan:canonical",
    [RIGYOMAD_NUMBER_ARITHMETIC] = "nan:arithmetic",
};

/* Prints a string after a text, if it is there. */
static void print_string(const char *before, struct rigyomad_string string, const char *after) {
    if (string.bytes) {
        printf("%s", before);
        print_escaped(string.bytes, string.size, "");
        printf("%s", after);
    }
}

static void print_hex(struct rigyomad_string string) {
    for (size_t i = 0; i < string.size; i++) {
        printf("%02x", (unsigned char)string.bytes[i]);
    }
}

static void print_place(struct rigyomad_place place) {
    printf("%zu:%zu@%zu", place.line, place.column, place.offset);
}

static void print_number(uint32_t form, uint64_t bits) {
    if (form == RIGYOMAD_NUMBER_BITS) {
        printf("%" PRIx64, bits);
    } else {
        printf("%s", NUMBERS[form]);
    }
}

static void print_vector(const struct rigyomad_script *script, struct rigyomad_value value) {
    printf("%s", SHAPES[value.form]);
    for (uint64_t i = 0; i < value.second; i++) {
        struct rigyomad_lane lane = rigyomad_script_lane(script, value.first + i);
        printf(",");
        print_number(lane.form, lane.bits);
    }
}

static void print_reference(const struct rigyomad_script *script, struct rigyomad_value value) {
    switch (value.form) {
    case RIGYOMAD_REFERENCE_ABSTRACT:
        printf("%s", HEAPS[value.first]);
        break;
    case RIGYOMAD_REFERENCE_SHARED:
        printf("shared-%s", HEAPS[value.first]);
        break;
    case RIGYOMAD_REFERENCE_NUMBER:
        printf("%" PRIu64, value.first);
        break;
    case RIGYOMAD_REFERENCE_ID:
        print_string("$", rigyomad_script_value_id(script, value), "");
        break;
    default:
        printf("*");
    }
}

static void print_value(const struct rigyomad_script *script, uint64_t index) {
    struct rigyomad_value value = rigyomad_script_value(script, index);
    printf(" %s:", VALUES[value.type]);
    switch (value.type) {
    case RIGYOMAD_VALUE_I32:
    case RIGYOMAD_VALUE_I64:
    case RIGYOMAD_VALUE_EITHER:
        printf("%" PRIu64, value.first);
        break;
    case RIGYOMAD_VALUE_F32:
    case RIGYOMAD_VALUE_F64:
        print_number(value.form, value.first);
        break;
    case RIGYOMAD_VALUE_V128:
        print_vector(script, value);
        break;
    default:
        print_reference(script, value);
    }
}

static void print_values(const struct rigyomad_script *script, uint64_t first, uint64_t count) {
    for (uint64_t i = 0; i < count; i++) {
        print_value(script, first + i);
    }
}

static void print_module(const struct rigyomad_script *script, uint64_t index) {
    struct rigyomad_module module = rigyomad_script_module(script, index);
    printf(" [");
    print_place(module.place);
    printf(" %s %zu+%zu", FORMS[module.form], module.source_offset, module.source_size);
    print_string(" $", module.id, "");
    print_string(" <", module.quoted, ">");
    printf(" ");
    if (module.status == RIGYOMAD_DONE) {
        print_hex(module.bytes);
    } else {
        printf("E%u ", (unsigned)module.number);
        print_place(module.fault);
        printf("+%zu", module.fault_end_offset - module.fault.offset);
        print_string(" ", module.message, "");
    }
    printf("]");
}

static void print_action(const struct rigyomad_script *script, uint64_t index) {
    struct rigyomad_action action = rigyomad_script_action(script, index);
    printf(" [");
    print_place(action.place);
    printf(" %s", action.is_get ? "get" : "invoke");
    print_string(" $", action.module, "");
    print_string(" \"", action.name, "\"");
    print_values(script, action.arguments, action.argument_count);
    printf("]");
}

static void print_command(const struct rigyomad_script *script, size_t index) {
    struct rigyomad_command command = rigyomad_script_command(script, index);
    print_place(command.place);
    printf(" %s", TYPES[command.type]);
    print_string(" $", command.id, "");
    print_string(" of $", command.of, "");
    if (command.module != RIGYOMAD_NONE) {
        print_module(script, command.module);
    }
    if (command.action != RIGYOMAD_NONE) {
        print_action(script, command.action);
    }
    print_values(script, command.results, command.result_count);
    print_string(" \"", command.text, "\"");
    printf("\n");
}

/* Prints the commands of a script, or its error. */
static uint32_t print_script(const char *text) {
    char message[256];
    struct rigyomad_script script;
    struct rigyomad_diagnosis at = {0};
    uint32_t status =
        rigyomad_script_open(text, strlen(text), &script, message, sizeof message, &at);
    if (status == RIGYOMAD_DONE) {
        for (size_t i = 0; i < rigyomad_script_size(&script); i++) {
            print_command(&script, i);
        }
        rigyomad_script_free(&script);
    } else if (status == RIGYOMAD_FAULT) {
        printf("%zu:%zu@%zu+%zu: ", at.line, at.column, at.offset, at.end_offset - at.offset);
        print_escaped(message, at.size < sizeof message ? at.size : sizeof message, "");
        printf("\n");
        return RIGYOMAD_DONE;
    }
    return status;
}

int main(int count, char **texts) {
    uint32_t status = RIGYOMAD_DONE;
    for (int i = 1; i < count && status == RIGYOMAD_DONE; i++) {
        status = print_script(texts[i]);
    }
    return (int)status;
}
