/* Calls each function on texts, and on slices that are null or too short: holds SEED COUNT SIZE
 * VERSION. COUNT texts are SIZE random bytes, and COUNT are standard input with a few bytes
 * changed. VERSION is that of the archive. It ends with status 0 if each call returns what
 * rigyomad.h says; else it prints what failed. */
#include "rigyomad_script.h"

#include <stdio.h>
#include <stdlib.h>
#include <string.h>

enum { MOST = 1 << 16 };

static uint64_t state;

static size_t below(size_t bound) {
    state = state * 6364136223846793005u + 1442695040888963407u;
    return (size_t)(state >> 33) % bound;
}

static void expect(int is_so, const char *what) {
    if (!is_so) {
        fprintf(stderr, "check failed: %s\n", what);
        exit(1);
    }
}

static void look_up(const char *text, size_t text_size, uint32_t encoded) {
    for (int i = 0; i < 9; i++) {
        uint32_t number = 12345;
        enum rigyomad_space space = (enum rigyomad_space)i;
        uint32_t status = rigyomad_resolve(text, text_size, space, "f", 1, &number);
        int is_resolved = status == RIGYOMAD_DONE || status == RIGYOMAD_UNKNOWN;
        expect(status == RIGYOMAD_DONE || number == 12345, "without a name the number stays");
        expect(encoded != RIGYOMAD_DONE || is_resolved, "what is encoded is resolved");
    }
}

/* Each name that is listed denotes its number, and its id begins at its place. */
static void look_up_each(const char *text, size_t text_size, const struct rigyomad_name *names,
                         const char *bytes, const struct rigyomad_names_room *room) {
    size_t end = 0;
    for (size_t i = 0; i < room->names; i++) {
        const struct rigyomad_name *it = &names[i];
        uint32_t number = it->number + 1;
        enum rigyomad_space space = (enum rigyomad_space)it->space;
        expect(it->start == end && it->size <= room->bytes - end, "names are one after another");
        expect(it->offset < text_size && text[it->offset] == '$', "an id begins with $");
        uint32_t status = rigyomad_resolve(text, text_size, space, bytes + end, it->size, &number);
        expect(status == RIGYOMAD_DONE && number == it->number, "a name has its number");
        end += it->size;
    }
    expect(end == room->bytes, "each byte is part of a name");
}

/* Lists the names of a text: without room, with too little, and with as much as they need. */
static void list_names(const char *text, size_t text_size, uint32_t resolved) {
    struct rigyomad_names_room room, again;
    uint32_t status = rigyomad_names(text, text_size, NULL, 0, NULL, 0, &room);
    expect(status == (room.names ? RIGYOMAD_SHORT : resolved), "names without room are too short");
    if (room.names == 0) {
        return;
    }
    struct rigyomad_name *names = malloc((room.names + 1) * sizeof *names);
    char *bytes = malloc(room.bytes + 1);
    expect(names != NULL && bytes != NULL, "there is memory");
    names[0].space = 99;
    bytes[room.bytes] = 'z';
    status = rigyomad_names(text, text_size, names, room.names - 1, bytes, room.bytes, &again);
    expect(status == RIGYOMAD_SHORT && names[0].space == 99, "names without room stay unwritten");
    expect(again.names == room.names && again.bytes == room.bytes, "the room is the same");
    status = rigyomad_names(text, text_size, names, room.names, bytes, room.bytes, &again);
    expect(status == RIGYOMAD_DONE && bytes[room.bytes] == 'z', "names that fit are written");
    look_up_each(text, text_size, names, bytes, &room);
    free(bytes);
    free(names);
}

static void diagnose(const char *text, size_t text_size, uint32_t encoded) {
    struct rigyomad_diagnosis at;
    char message[8];
    uint32_t status = rigyomad_fault(text, text_size, message, sizeof message, &at);
    expect(status == encoded, "a fault is told where there are no bytes");
    expect(at.offset <= text_size, "a place is in the text");
    expect((status == RIGYOMAD_DONE) == (at.size == 0), "a fault has a message");
}

/* Encodes a text without room, with one byte too little, and with as much as it needs. */
static uint32_t encode(const char *text, size_t text_size) {
    size_t size = 12345, again = 12345;
    uint32_t status = rigyomad_encode(text, text_size, NULL, 0, &size);
    expect(status == RIGYOMAD_SHORT ? size >= 8 : size == 0, "a module has eight bytes or more");
    uint8_t *out = malloc(size + 1);
    expect(out != NULL, "there is memory");
    memset(out, 0xa5, size + 1);
    if (size > 0) {
        status = rigyomad_encode(text, text_size, out, size - 1, &again);
        expect(status == RIGYOMAD_SHORT, "one byte is missing");
        expect(out[0] == 0xa5 && again == size, "what does not fit is not written");
        status = rigyomad_encode(text, text_size, out, size, &again);
        expect(status == RIGYOMAD_DONE && again == size, "what fits is written");
        expect(!memcmp(out, "\0asm", 4), "a module begins with its magic number");
        expect(out[size] == 0xa5, "nothing is written after the bytes");
    }
    free(out);
    return status;
}

/* Calls each function on a text. */
static void call_each(const char *text, size_t text_size) {
    uint32_t status = encode(text, text_size);
    diagnose(text, text_size, status);
    look_up(text, text_size, status);
    uint32_t number;
    uint32_t resolved = rigyomad_resolve(text, text_size, RIGYOMAD_SPACE_FUNC, "", 0, &number);
    list_names(text, text_size, resolved == RIGYOMAD_UNKNOWN ? RIGYOMAD_DONE : resolved);
}

static void random_bytes(char *text, size_t size) {
    for (size_t i = 0; i < size; i++) {
        text[i] = (char)below(256);
    }
}

/* A text that differs in a few bytes. */
static void change(char *text, size_t size) {
    for (size_t i = below(4); i > 0 && size > 0; i--) {
        text[below(size)] = "()$\";= 01afmxe\xff"[below(16)];
    }
}

/* A call refuses its slices. */
#define REFUSED(call) expect((call) == RIGYOMAD_SLICE, "refused: " #call)

/* Slices that are null or too long are refused, and null slices without bytes are not. */
static void no_slices(void) {
    struct rigyomad_diagnosis at;
    struct rigyomad_names_room room;
    struct rigyomad_name name;
    const enum rigyomad_space func = RIGYOMAD_SPACE_FUNC;
    struct rigyomad_script script;
    const size_t most = (size_t)PTRDIFF_MAX / sizeof name + 1, size_most = (size_t)PTRDIFF_MAX + 1;
    uint32_t number;
    size_t size;
    char byte;
    REFUSED(rigyomad_encode(NULL, 1, &byte, 1, &size));
    REFUSED(rigyomad_encode("", size_most, &byte, 1, &size));
    REFUSED(rigyomad_encode("", 0, NULL, 1, &size));
    REFUSED(rigyomad_encode("", 0, &byte, size_most, &size));
    REFUSED(rigyomad_encode("", 0, &byte, 1, NULL));
    REFUSED(rigyomad_fault(NULL, 1, &byte, 1, &at));
    REFUSED(rigyomad_fault("", size_most, &byte, 1, &at));
    REFUSED(rigyomad_fault("", 0, NULL, 1, &at));
    REFUSED(rigyomad_fault("", 0, &byte, size_most, &at));
    REFUSED(rigyomad_fault("", 0, NULL, 0, NULL));
    REFUSED(rigyomad_resolve(NULL, 1, func, "f", 1, &number));
    REFUSED(rigyomad_resolve("", size_most, func, "f", 1, &number));
    REFUSED(rigyomad_resolve("", 0, func, NULL, 1, &number));
    REFUSED(rigyomad_resolve("", 0, func, "f", size_most, &number));
    REFUSED(rigyomad_resolve("", 0, func, "f", 1, NULL));
    REFUSED(rigyomad_names(NULL, 1, &name, 1, &byte, 1, &room));
    REFUSED(rigyomad_names("", size_most, &name, 1, &byte, 1, &room));
    REFUSED(rigyomad_names("", 0, NULL, 1, &byte, 1, &room));
    REFUSED(rigyomad_names("", 0, &name, most, &byte, 1, &room));
    REFUSED(rigyomad_names("", 0, &name, 1, NULL, 1, &room));
    REFUSED(rigyomad_names("", 0, &name, 1, &byte, size_most, &room));
    REFUSED(rigyomad_names("", 0, &name, 1, &byte, 1, NULL));
    REFUSED(rigyomad_script_open(NULL, 1, &script, &byte, 1, &at));
    REFUSED(rigyomad_script_open("", size_most, &script, &byte, 1, &at));
    REFUSED(rigyomad_script_open("", 0, NULL, &byte, 1, &at));
    REFUSED(rigyomad_script_open("", 0, &script, NULL, 1, &at));
    REFUSED(rigyomad_script_open("", 0, &script, &byte, size_most, &at));
    REFUSED(rigyomad_script_open("", 0, &script, &byte, 1, NULL));
    uint32_t status = rigyomad_encode(NULL, 0, NULL, 0, &size);
    expect(status == RIGYOMAD_SHORT, "no text is an empty module");
    status = rigyomad_fault(NULL, 0, NULL, 0, &at);
    expect(status == RIGYOMAD_DONE, "an empty module has no fault");
    status = rigyomad_resolve(NULL, 0, func, NULL, 0, &number);
    expect(status == RIGYOMAD_UNKNOWN, "an empty module has no function");
    status = rigyomad_names(NULL, 0, NULL, 0, NULL, 0, &room);
    expect(status == RIGYOMAD_DONE && room.names == 0, "an empty module has no names");
    status = rigyomad_script_open(NULL, 0, &script, NULL, 0, &at);
    expect(status == RIGYOMAD_DONE && rigyomad_script_size(&script) == 1, "no text is one module");
    rigyomad_script_free(&script);
}

/* Each status and each fault has a text of its own, and no other number has one. */
static void texts_of_numbers(void) {
    for (uint32_t i = 0; i <= RIGYOMAD_SLICE; i++) {
        const char *text = rigyomad_status_text(i);
        expect(strcmp(text, rigyomad_status_text(i + 1)) != 0, "a status has its own text");
    }
    for (uint32_t i = 0; i <= RIGYOMAD_E13_COMPONENT; i++) {
        const char *text = rigyomad_fault_text(i);
        expect(strcmp(text, rigyomad_fault_text(i + 1)) != 0, "a fault has its own text");
    }
    expect(!strcmp(rigyomad_status_text(7), "no such status"), "no status has the number 7");
    expect(!strcmp(rigyomad_fault_text(14), "no such fault"), "no fault has the number 14");
}

/* Each index space has its number: a name is in its own alone. */
static void spaces(void) {
    static const struct {
        enum rigyomad_space space;
        const char *name;
    } named[] = {
        {RIGYOMAD_SPACE_FUNC, "f"},  {RIGYOMAD_SPACE_TABLE, "t"}, {RIGYOMAD_SPACE_MEMORY, "m"},
        {RIGYOMAD_SPACE_GLOBAL, "g"}, {RIGYOMAD_SPACE_TAG, "e"},  {RIGYOMAD_SPACE_ELEM, "s"},
        {RIGYOMAD_SPACE_DATA, "d"},  {RIGYOMAD_SPACE_TYPE, "y"},
    };
    static const char text[] =
        "(module (func $f) (table $t 1 funcref) (memory $m 1) (global $g i32 (i32.const 0))"
        " (tag $e) (elem $s func) (data $d \"\") (type $y (func)))";
    uint32_t number;
    for (size_t i = 0; i < 8; i++) {
        for (size_t k = 0; k < 8; k++) {
            const char *name = named[i].name;
            enum rigyomad_space space = named[k].space;
            uint32_t status = rigyomad_resolve(text, sizeof text - 1, space, name, 1, &number);
            expect(status == (i == k ? RIGYOMAD_DONE : RIGYOMAD_UNKNOWN), "a name has its space");
        }
    }
}

int main(int count, char **words) {
    if (count != 5) {
        return 2;
    }
    state = strtoull(words[1], NULL, 10);
    size_t texts = strtoul(words[2], NULL, 10), size = strtoul(words[3], NULL, 10);
    static char written[MOST], changed[MOST];
    size_t written_size = fread(written, 1, MOST, stdin);
    char *text = malloc(size + 1);
    expect(text != NULL, "there is memory");
    expect(!strcmp(rigyomad_version_text(), words[4]), "the archive has this version");
    texts_of_numbers();
    no_slices();
    spaces();
    for (size_t i = 0; i < texts; i++) {
        random_bytes(text, size);
        call_each(text, size);
        memcpy(changed, written, written_size);
        change(changed, written_size);
        call_each(changed, written_size);
    }
    free(text);
    return 0;
}
