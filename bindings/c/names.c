/* Prints what each name of the modules of texts denotes, as `wat --names` does: names TEXT..
 * The status is that of the first call that does not succeed. */
#include "escapes.h"
#include "rigyomad.h"

#include <stdlib.h>

/* The word of each index space. */
static const char *const WORDS[] = {"func", "table", "memory", "global",
                                    "tag",  "elem",  "data",   "type"};

/* Whether an id needs no quotes. */
static int is_plain(const char *name, size_t size) {
    size_t i = 0;
    while (i < size && name[i] > ' ' && name[i] < 0x7f && !strchr("\"(),;[]{}", name[i])) {
        i++;
    }
    return i == size;
}

static void print_names(const struct rigyomad_name *names, size_t count, const char *bytes) {
    for (size_t i = 0; i < count; i++) {
        const char *name = bytes + names[i].start;
        size_t size = names[i].size;
        int has_quotes = !is_plain(name, size);
        printf("%s %s", WORDS[names[i].space], has_quotes ? "$\"" : "$");
        print_escaped(name, size, has_quotes ? "\"'\\" : "");
        printf("%s %u\n", has_quotes ? "\"" : "", (unsigned)names[i].number);
    }
}

/* Prints the names of a text, with room for as many as it can have. */
static uint32_t list(const char *text) {
    size_t size = strlen(text), most = size / 8;
    struct rigyomad_names_room room;
    struct rigyomad_name *names = malloc(most * sizeof *names + 1);
    char *bytes = malloc(size + 1);
    uint32_t status = RIGYOMAD_MEMORY;
    if (names && bytes) {
        status = rigyomad_names(text, size, names, most, bytes, size, &room);
    }
    if (status == RIGYOMAD_DONE) {
        print_names(names, room.names, bytes);
    }
    free(bytes);
    free(names);
    return status;
}

int main(int count, char **words) {
    for (int i = 1; i < count; i++) {
        uint32_t status = list(words[i]);
        if (status != RIGYOMAD_DONE) {
            return (int)status;
        }
    }
    return 0;
}
