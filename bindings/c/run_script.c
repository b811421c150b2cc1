/* Runs the script of tests on standard input over an engine: run_script < SCRIPT. It prints each
 * assertion that fails, and how many commands passed, failed and were skipped.
 *
 * The engine is made for this example: yours plugs in at `engine_load` and `engine_call`. It knows
 * functions without parameters whose body is `i32.const` or `unreachable`, and no imports. */
#include "rigyomad_script.h"

#include <stdio.h>
#include <stdlib.h>
#include <string.h>

/* ---- the engine: modules are their bytes, of which it reads the exports and the code ---- */

enum outcome { RETURNED, TRAPPED, UNSUPPORTED };

/* A part of a module that is read. */
struct reader {
    const uint8_t *at, *end;
};

static uint8_t next_byte(struct reader *reader) {
    return reader->at < reader->end ? *reader->at++ : 0;
}

/* Reads an integer in LEB128; a signed one is sign-extended. */
static int64_t leb128(struct reader *reader, int is_signed) {
    uint64_t value = 0;
    unsigned shift = 0;
    uint8_t byte;
    do {
        byte = next_byte(reader);
        value |= (uint64_t)(byte & 0x7f) << shift;
        shift += 7;
    } while (byte & 0x80 && shift < 63);
    return is_signed && byte & 0x40 ? (int64_t)(value | ~(uint64_t)0 << shift) : (int64_t)value;
}

/* Reads so many bytes as a part of their own. */
static struct reader part(struct reader *reader, uint64_t size) {
    struct reader found = {reader->at, reader->at};
    if (size <= (uint64_t)(reader->end - reader->at)) {
        found.end = reader->at += size;
    }
    return found;
}

/* The section with a number, or an empty part. */
static struct reader section(struct rigyomad_string module, uint8_t number) {
    const uint8_t *bytes = (const uint8_t *)module.bytes;
    struct reader reader = {bytes + 8, bytes + module.size}, none = {bytes, bytes};
    while (reader.at < reader.end) {
        uint8_t found = next_byte(&reader);
        struct reader contents = part(&reader, (uint64_t)leb128(&reader, 0));
        if (found == number) {
            return contents;
        }
    }
    return none;
}

/* Whether the engine accepts a module: it tests the header alone. */
static int engine_load(struct rigyomad_string module) {
    return module.size >= 8 && memcmp(module.bytes, "\0asm\1\0\0\0", 8) == 0;
}

/* The body of a function, by its index. */
static struct reader body_of(struct rigyomad_string module, int64_t index) {
    struct reader code = section(module, 10), body = {code.end, code.end};
    int64_t count = leb128(&code, 0);
    for (int64_t i = 0; i <= index && i < count; i++) {
        body = part(&code, (uint64_t)leb128(&code, 0));
    }
    return body;
}

/* The index of an exported function, or -1. */
static int64_t exported(struct rigyomad_string module, struct rigyomad_string name) {
    struct reader exports = section(module, 7);
    for (int64_t count = leb128(&exports, 0); count > 0; count--) {
        struct reader found = part(&exports, (uint64_t)leb128(&exports, 0));
        uint8_t kind = next_byte(&exports);
        int64_t index = leb128(&exports, 0);
        size_t size = (size_t)(found.end - found.at);
        if (kind == 0 && size == name.size && memcmp(found.at, name.bytes, size) == 0) {
            return index;
        }
    }
    return -1;
}

/* Calls an exported function. */
static enum outcome engine_call(struct rigyomad_string module, struct rigyomad_string name,
                                uint32_t *value) {
    struct reader body = body_of(module, exported(module, name));
    int has_locals = next_byte(&body) != 0;
    uint8_t opcode = next_byte(&body);
    *value = opcode == 0x41 ? (uint32_t)leb128(&body, 1) : 0;
    if (has_locals || next_byte(&body) != 0x0b) {
        return UNSUPPORTED;
    }
    return opcode == 0x41 ? RETURNED : opcode == 0x00 ? TRAPPED : UNSUPPORTED;
}

/* ---- the runner ---- */

/* The instances so far. The last one of an id counts. */
struct run {
    struct rigyomad_script script;
    struct rigyomad_module *instances;
    size_t count;
    unsigned passed, failed, skipped;
};

static int is_same(struct rigyomad_string a, struct rigyomad_string b) {
    return a.size == b.size && (!a.size || memcmp(a.bytes, b.bytes, a.size) == 0);
}

/* The instance that an action refers to: that of an id, or the last one. */
static const struct rigyomad_module *instance(const struct run *run, struct rigyomad_string id) {
    for (size_t i = run->count; i > 0; i--) {
        if (!id.bytes || is_same(run->instances[i - 1].id, id)) {
            return &run->instances[i - 1];
        }
    }
    return NULL;
}

static enum outcome act(const struct run *run, uint64_t index, uint32_t *value) {
    struct rigyomad_action action = rigyomad_script_action(&run->script, index);
    const struct rigyomad_module *of = instance(run, action.module);
    if (!of || action.is_get || action.argument_count) {
        return UNSUPPORTED;
    }
    return engine_call(of->bytes, action.name, value);
}

/* Whether a value is the one result that an assertion wants, or one of the alternatives of it. */
static int is_wanted(const struct run *run, const struct rigyomad_command *command,
                     uint32_t value) {
    for (uint64_t i = 0; i < command->result_count; i++) {
        struct rigyomad_value result = rigyomad_script_value(&run->script, command->results + i);
        if (result.type == RIGYOMAD_VALUE_I32 && result.first == value) {
            return 1;
        }
    }
    return 0;
}

enum verdict { PASSED, FAILED, SKIPPED };

static enum verdict verdict_of(struct run *run, const struct rigyomad_command *command) {
    uint32_t value = 0;
    enum outcome outcome = UNSUPPORTED;
    struct rigyomad_module module;
    memset(&module, 0, sizeof module);
    if (command->module != RIGYOMAD_NONE) {
        module = rigyomad_script_module(&run->script, command->module);
    }
    if (command->action != RIGYOMAD_NONE) {
        outcome = act(run, command->action, &value);
    }
    int is_refused = command->type == RIGYOMAD_COMMAND_ASSERT_MALFORMED ||
                     command->type == RIGYOMAD_COMMAND_ASSERT_INVALID;
    if (module.status == RIGYOMAD_FAULT) {
        return is_refused ? PASSED : FAILED;
    }
    switch (command->type) {
    case RIGYOMAD_COMMAND_MODULE:
        if (!engine_load(module.bytes)) {
            return FAILED;
        }
        run->instances[run->count++] = module;
        return PASSED;
    case RIGYOMAD_COMMAND_ACTION:
    case RIGYOMAD_COMMAND_ASSERT_RETURN:
        if (outcome == UNSUPPORTED) {
            return SKIPPED;
        }
        return outcome == RETURNED &&
                       (command->type == RIGYOMAD_COMMAND_ACTION || is_wanted(run, command, value))
                   ? PASSED
                   : FAILED;
    case RIGYOMAD_COMMAND_ASSERT_TRAP:
        return outcome == UNSUPPORTED ? SKIPPED : outcome == TRAPPED ? PASSED : FAILED;
    case RIGYOMAD_COMMAND_ASSERT_MALFORMED:
    case RIGYOMAD_COMMAND_ASSERT_INVALID:
        return engine_load(module.bytes) ? FAILED : PASSED;
    default:
        return SKIPPED;
    }
}

static void run_command(struct run *run, size_t index) {
    struct rigyomad_command command = rigyomad_script_command(&run->script, index);
    enum verdict verdict = verdict_of(run, &command);
    run->passed += verdict == PASSED;
    run->failed += verdict == FAILED;
    run->skipped += verdict == SKIPPED;
    if (verdict == FAILED) {
        printf("%zu:%zu: failed\n", command.place.line, command.place.column);
    }
}

static int run_script(const char *text, size_t size) {
    struct run run;
    struct rigyomad_diagnosis at = {0};
    char message[256];
    memset(&run, 0, sizeof run);
    uint32_t status =
        rigyomad_script_open(text, size, &run.script, message, sizeof message, &at);
    if (status != RIGYOMAD_DONE) {
        int shown = status == RIGYOMAD_MEMORY ? 0 : at.size < 256 ? (int)at.size : 256;
        fprintf(stderr, "error: %.*s (%s)\n", shown, message, rigyomad_status_text(status));
        return (int)status;
    }
    size_t count = rigyomad_script_size(&run.script);
    run.instances = malloc((count + 1) * sizeof *run.instances);
    for (size_t i = 0; run.instances && i < count; i++) {
        run_command(&run, i);
    }
    int is_run = run.instances != NULL;
    free(run.instances);
    rigyomad_script_free(&run.script);
    if (!is_run) {
        return RIGYOMAD_MEMORY;
    }
    printf("%u passed, %u failed, %u skipped\n", run.passed, run.failed, run.skipped);
    return run.failed > 0;
}

/* Reads a stream whole. Returns NULL if there is no memory, or if reading fails. */
static char *read_all(FILE *stream, size_t *size) {
    size_t room = 1 << 16;
    char *text = malloc(room);
    *size = 0;
    while (text && (*size += fread(text + *size, 1, room - *size, stream)) == room) {
        char *more = realloc(text, room *= 2);
        if (!more) {
            free(text);
        }
        text = more;
    }
    if (text && ferror(stream)) {
        free(text);
        text = NULL;
    }
    return text;
}

int main(void) {
    size_t size;
    char *text = read_all(stdin, &size);
    if (!text) {
        fprintf(stderr, "error: cannot read the script\n");
        return 1;
    }
    int status = run_script(text, size);
    free(text);
    return status;
}
