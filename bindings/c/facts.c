/* Calls each function on texts whose answers are known: facts. It ends with status 0 if each call
 * returns them; else it prints what failed.
 *
 * It counts blocks of memory, so the linker needs --wrap=malloc, --wrap=realloc and --wrap=free. */
#include "rigyomad_script.h"

#include <stdio.h>
#include <stdlib.h>
#include <string.h>

/* A text, and its size without the zero after it. */
#define TEXT(text) text, sizeof text - 1

/* A text with a fault in its second line. */
#define FAULTY TEXT("(module\n (start $f))")

/* Two items in each index space, of which the second has an id. */
static const char NAMED[] =
    "(module (type (func)) (type $t (func)) (func) (func $f) (table 1 funcref)\n"
    "    (table $x 1 funcref) (memory 1) (memory $m 1) (global i32 (i32.const 0))\n"
    "    (global $g i32 (i32.const 0)) (tag) (tag $e) (elem func) (elem $s func) (data \"\")\n"
    "    (data $d \"\"))";

/* The names of these, by the number of their index space. */
static const char NAMES[] = "fxmgesdt";

static void expect(int is_so, const char *what) {
    if (!is_so) {
        fprintf(stderr, "check failed: %s\n", what);
        exit(1);
    }
}

/* How many blocks are not freed, and which request from now on is refused: 0 if none is. */
static long blocks, refused;

/* The linker hands the requests of the archive and of the headers to these. */
void *__real_malloc(size_t size);
void *__real_realloc(void *old, size_t size);
void __real_free(void *block);
void *__wrap_malloc(size_t size);
void *__wrap_realloc(void *old, size_t size);
void __wrap_free(void *block);

static int is_refused(void) {
    return refused > 0 && --refused == 0;
}

void *__wrap_malloc(size_t size) {
    void *block = is_refused() ? NULL : __real_malloc(size);
    blocks += block != NULL;
    return block;
}

void *__wrap_realloc(void *old, size_t size) {
    void *block = is_refused() ? NULL : __real_realloc(old, size);
    blocks += block != NULL && old == NULL;
    return block;
}

void __wrap_free(void *block) {
    blocks -= block != NULL;
    __real_free(block);
}

/* Bytes are copied if they fit. */
static void bytes(void) {
    uint8_t out[25];
    size_t size = 0;
    memset(out, 7, sizeof out);
    uint32_t status = rigyomad_encode(TEXT("(module (func))"), out, 25, &size);
    expect(status == RIGYOMAD_DONE && size == 24, "a module has 24 bytes");
    expect(out[1] == 'a' && out[24] == 7, "only its bytes are written");
    status = rigyomad_encode(TEXT("(module (func))"), out, 23, &size);
    expect(status == RIGYOMAD_SHORT && size == 24, "23 bytes are too short");
    status = rigyomad_encode(FAULTY, out, 25, &size);
    expect(status == RIGYOMAD_FAULT && size == 0, "a fault has no bytes");
    status = rigyomad_encode(TEXT("(module) ;; \xff"), out, 25, &size);
    expect(status == RIGYOMAD_UTF8, "a comment is UTF-8");
}

/* A fault has its number, its place, and as much of its message as fits. */
static void faults(void) {
    struct rigyomad_diagnosis at;
    char message[64], cut[8] = ".......";
    memset(message, '.', sizeof message);
    uint32_t status = rigyomad_fault(FAULTY, message, 64, &at);
    expect(status == RIGYOMAD_FAULT && at.number == RIGYOMAD_E4_UNKNOWN, "the fault is E4");
    expect(at.offset == 16 && at.line == 2 && at.column == 9, "it is in the second line");
    expect(at.end_offset == 18, "the token ends behind the id");
    const char *told = "unknown func: failed to find name `$f`.";
    expect(at.size == 38 && !memcmp(message, told, 39), "the message is whole, and no more");
    status = rigyomad_fault(TEXT("(module (fun))"), cut, 7, &at);
    expect(status == RIGYOMAD_FAULT && at.number == 0 && at.column == 10, "it is no module");
    expect(at.end_offset == 12, "the token is the word");
    const char *more = "expected valid module field, found `fun`; did you mean `func`?";
    expect(at.size == strlen(more) && !strcmp(cut, "expecte"), "a message is cut");
    status = rigyomad_fault(TEXT("(module (type (func)) (type (cont 0)))"), message, 64, &at);
    expect(status == RIGYOMAD_FAULT && at.number == RIGYOMAD_E11_UNCOVERED, "the fault is E11");
    status = rigyomad_fault(TEXT("(module)\xff"), message, 64, &at);
    expect(status == RIGYOMAD_UTF8 && at.offset == 8 && at.end_offset == 8 && at.line == 0,
           "a byte has an offset");
    expect(!memcmp(message, TEXT("malformed UTF-8 encoding")), "it has a message");
    status = rigyomad_fault(TEXT("(module\r (start $f))"), message, 64, &at);
    expect(status == RIGYOMAD_FAULT && at.line == 1 && at.column == 17, "CR ends no line");
    status = rigyomad_fault(TEXT("(module)"), message, 64, &at);
    expect(status == RIGYOMAD_DONE && at.number == 0, "a module has no fault");
    expect(at.line == 0 && at.size == 0 && at.end_offset == 0, "it has no place and no message");
}

/* An error has notes, which are found by their numbers. */
static void notes(void) {
    struct rigyomad_diagnosis at;
    char message[64], cut[8] = ".......";
    memset(message, '.', sizeof message);
    uint32_t status = rigyomad_note(TEXT("(module\n (func $f) (func $f))"), 0, message, 64, &at);
    expect(status == RIGYOMAD_DONE && at.number == RIGYOMAD_E2_DUPLICATE, "a note has a number");
    expect(at.offset == 15 && at.end_offset == 17, "it is at the first id");
    expect(at.line == 2 && at.column == 8, "it is in the second line");
    expect(at.size == 18 && !memcmp(message, "first defined here.", 19), "its message is whole");
    status = rigyomad_note(TEXT("(module (fun))"), 0, cut, 7, &at);
    expect(status == RIGYOMAD_DONE && at.number == 0 && at.offset == 9, "a suggestion is a note");
    expect(at.size == 20 && !strcmp(cut, "did you"), "its message is cut");
    status = rigyomad_note(FAULTY, 0, NULL, 0, &at);
    expect(status == RIGYOMAD_UNKNOWN && at.number == 0, "an error may have no note");
    status = rigyomad_note(TEXT("(module (fun))"), 1, NULL, 0, &at);
    expect(status == RIGYOMAD_UNKNOWN && at.line == 0, "there is one note");
    status = rigyomad_note(TEXT("(module)"), 0, NULL, 0, &at);
    expect(status == RIGYOMAD_UNKNOWN, "a module has no error");
    status = rigyomad_note(TEXT("(module)\xff"), 0, NULL, 0, &at);
    expect(status == RIGYOMAD_UTF8 && at.offset == 0, "a note is of a text");
}

/* A terminal shows more columns of some characters than of others. */
static void widths(void) {
    expect(rigyomad_width('a') == 1 && rigyomad_width('\t') == 1, "ASCII has one column");
    expect(rigyomad_width(0x4e2d) == 2 && rigyomad_width(0x1f389) == 2, "others have two");
    expect(rigyomad_width(0x301) == 0, "an accent has none");
    expect(rigyomad_width(0xd800) == 1 && rigyomad_width(UINT32_MAX) == 1, "no character has one");
}

/* A name is looked up in its index space. */
static void indices(void) {
    uint32_t number, status;
    for (int space = 0; space < 8; space++) {
        for (int asked = 0; asked < 9; asked++) {
            number = 9;
            enum rigyomad_space in = (enum rigyomad_space)asked;
            status = rigyomad_resolve(NAMED, strlen(NAMED), in, &NAMES[space], 1, &number);
            int is_there = status == RIGYOMAD_DONE && number == 1;
            int is_unknown = status == RIGYOMAD_UNKNOWN && number == 9;
            expect(asked == space ? is_there : is_unknown, "a name is in its index space alone");
        }
    }
    number = 9;
    status = rigyomad_resolve(NAMED, strlen(NAMED), RIGYOMAD_SPACE_FUNC, "\xff", 1, &number);
    expect(status == RIGYOMAD_UTF8 && number == 9, "a name is UTF-8");
    status = rigyomad_resolve(FAULTY, RIGYOMAD_SPACE_FUNC, "f", 1, &number);
    expect(status == RIGYOMAD_FAULT && number == 9, "a fault has no names");
    expect(rigyomad_version() == 2, "the version of the declarations is 2");
}

/* All names are listed, if there is room for them. */
static void lists(void) {
    static const size_t small[][2] = {{7, 8}, {8, 7}, {0, 0}};
    struct rigyomad_name names[9];
    struct rigyomad_names_room room;
    char text[10] = ".........";
    names[0].space = names[8].space = 9;
    for (int i = 0; i < 3; i++) {
        uint32_t status = rigyomad_names(NAMED, strlen(NAMED), names, small[i][0], text,
                                         small[i][1], &room);
        expect(status == RIGYOMAD_SHORT && room.names == 8 && room.bytes == 8, "8 are needed");
        expect(names[0].space == 9 && text[0] == '.', "without room nothing is written");
    }
    uint32_t status = rigyomad_names(NAMED, strlen(NAMED), names, 9, text, 9, &room);
    expect(status == RIGYOMAD_DONE && room.names == 8 && room.bytes == 8, "there are 8 names");
    expect(!strcmp(text, "fxmgesdt.") && names[8].space == 9, "only they are written");
    for (uint32_t i = 0; i < 8; i++) {
        expect(names[i].space == i && names[i].number == 1, "they are in order");
        expect(names[i].start == i && names[i].size == 1, "each has its bytes");
        expect(NAMED[names[i].offset] == '$', "each is at its id");
    }
}

/* Ids that desugaring generates are not listed, and names are without their escapes. */
static void generated(void) {
    static const char text[] = "(module (func (export \"a\")) (func $\"a\\20b\" (export \"b\")) "
                               "(table funcref (elem)))";
    struct rigyomad_name names[2];
    struct rigyomad_names_room room;
    char bytes[5] = "....";
    uint32_t status = rigyomad_names(text, strlen(text), names, 2, bytes, 4, &room);
    expect(status == RIGYOMAD_DONE && room.names == 1 && room.bytes == 3, "there is one name");
    expect(!strcmp(bytes, "a b."), "it is without escapes");
    expect(names[0].number == 1 && names[0].offset == 34, "it is of the second function");
    uint32_t number = 9;
    status = rigyomad_resolve(text, strlen(text), RIGYOMAD_SPACE_FUNC, "gensym", 6, &number);
    expect(status == RIGYOMAD_UNKNOWN && number == 9, "a generated id has no name");
    status = rigyomad_names(TEXT("(module (func (export \"a\")) (table funcref (elem 0)) "
                                 "(memory (data \"\")))"),
                            names, 2, bytes, 4, &room);
    expect(status == RIGYOMAD_DONE && room.names == 0 && room.bytes == 0, "there is no name");
    status = rigyomad_names(FAULTY, names, 2, bytes, 4, &room);
    expect(status == RIGYOMAD_FAULT && room.names == 0 && room.bytes == 0, "a fault has no names");
    status = rigyomad_names(TEXT("\xff"), names, 2, bytes, 4, &room);
    expect(status == RIGYOMAD_UTF8 && room.names == 0, "a byte has no names");
    expect(!strcmp(bytes, "a b."), "nothing is written");
}

/* Each status and each fault has its words. */
static void words(void) {
    static const char *const of_status[] = {
        "success",
        "a slice is too short",
        "the module has an error",
        "the text or the name is not UTF-8",
        "allocation failed",
        "nothing has the name, or there is no such index space",
        "a pointer is null, or a length is more than PTRDIFF_MAX",
        "no such status",
    };
    static const char *const of_fault[] = {
        "the text is not a module",
        "an import comes after a definition",
        "two items of one index space, or two locals, have the same id",
        "two fields of a struct have the same id",
        "nothing has this name",
        "a type use has a type that is not a function type",
        "a type index is out of bounds",
        "an inline type is not the type at the index",
        "the label at the end of a block is not that at its start",
        "a field is accessed by name, but the type has no named fields",
        "a count or a size does not fit in 32 bits",
        "an unsupported construct, which resolves but cannot be encoded",
        "allocation failed",
        "the module is a component, not a core module",
        "no such fault",
    };
    for (uint32_t i = 0; i < sizeof of_status / sizeof *of_status; i++) {
        expect(!strcmp(rigyomad_status_text(i), of_status[i]), "a status has its words");
    }
    for (uint32_t i = 0; i < sizeof of_fault / sizeof *of_fault; i++) {
        expect(!strcmp(rigyomad_fault_text(i), of_fault[i]), "a fault has its words");
    }
}

/* A script that is not read has nothing to free. */
static void expect_nothing(const struct rigyomad_script *script) {
    expect(!script->records && script->size == 0 && blocks == 0, "nothing is left to free");
}

/* A text that is no script has its fault. */
static void script_faults(void) {
    struct rigyomad_script script;
    struct rigyomad_diagnosis at;
    char message[64];
    memset(message, '.', sizeof message);
    uint32_t status =
        rigyomad_script_open(TEXT("(module)\n(assert_foo)"), &script, message, 64, &at);
    expect(status == RIGYOMAD_FAULT && at.number == 0, "it is no script");
    expect(at.offset == 10 && at.line == 2 && at.column == 2, "the fault is in the second line");
    const char *told = "expected a command, found `assert_foo`.";
    expect(at.size == 38 && !memcmp(message, told, 39), "the message is whole, and no more");
    expect_nothing(&script);
    status = rigyomad_script_open(TEXT("(module)\n;; \xff"), &script, message, 64, &at);
    expect(status == RIGYOMAD_UTF8 && at.offset == 12 && at.line == 0, "a byte has an offset");
    expect_nothing(&script);
}

/* A script of short commands needs more room than it is given first. If a request is refused,
 * nothing is left of it, and what is read is freed once. */
static void script_rooms(void) {
    enum { COUNT = 1000 };
    static char text[9 * COUNT];
    struct rigyomad_script script;
    struct rigyomad_diagnosis at;
    for (size_t i = 0; i < sizeof text; i++) {
        text[i] = "(wait $t)"[i % 9];
    }
    uint32_t status = RIGYOMAD_MEMORY;
    for (long number = 1; status == RIGYOMAD_MEMORY; number++) {
        refused = number;
        status = rigyomad_script_open(text, sizeof text, &script, NULL, 0, &at);
        if (status == RIGYOMAD_MEMORY) {
            expect_nothing(&script);
        }
    }
    expect(status == RIGYOMAD_DONE && refused > 0, "each request was refused, and then none");
    refused = 0;
    expect(rigyomad_script_size(&script) == COUNT && blocks == 1, "the script is in one block");
    struct rigyomad_command command = rigyomad_script_command(&script, COUNT - 1);
    expect(command.type == RIGYOMAD_COMMAND_WAIT, "the last command waits");
    expect(command.place.offset == 9 * COUNT - 8, "it has its offset");
    expect(command.id.size == 1 && *command.id.bytes == 't', "it has its id");
    rigyomad_script_free(&script);
    expect_nothing(&script);
    rigyomad_script_free(&script);
    expect_nothing(&script);
    status = rigyomad_script_open(TEXT("(wait $t)"), &script, NULL, 0, &at);
    expect(status == RIGYOMAD_DONE && script.size < 4096, "the size is that of the records");
    rigyomad_script_free(&script);
}

int main(void) {
    bytes();
    faults();
    notes();
    widths();
    indices();
    lists();
    generated();
    words();
    expect(blocks == 0, "calls free what they allocate");
    script_faults();
    script_rooms();
    return 0;
}
