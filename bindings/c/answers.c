/* Prints what the archive returns of texts, for tools/test doors: answers < TEXTS. A line of each has
 * hexadecimal digits: those of a text, and those of its module, or the number, offset, line and
 * column of its fault and the digits of the message. */
#include "rigyomad.h"

#include <stdio.h>
#include <stdlib.h>
#include <string.h>

enum { MOST = 1 << 20 };

static void print_hex(const uint8_t *bytes, size_t size) {
    for (size_t i = 0; i < size; i++) {
        printf("%02x", bytes[i]);
    }
    printf("\n");
}

/* Replaces hexadecimal digits by the bytes that they are, and returns how many these are. */
static size_t read_hex(char *line) {
    size_t size = strcspn(line, "\n") / 2;
    for (size_t i = 0; i < size; i++) {
        char digits[3] = {line[2 * i], line[2 * i + 1], 0};
        line[i] = (char)strtoul(digits, NULL, 16);
    }
    return size;
}

int main(void) {
    static char line[MOST];
    static uint8_t out[MOST];
    while (fgets(line, sizeof line, stdin)) {
        size_t size = read_hex(line), written = 0;
        struct rigyomad_diagnosis at;
        uint32_t status = rigyomad_encode(line, size, out, sizeof out, &written);
        if (status == RIGYOMAD_DONE) {
            print_hex(out, written);
        } else if (rigyomad_fault(line, size, (char *)out, sizeof out, &at) == status) {
            printf("%u %zu %zu %zu ", (unsigned)at.number, at.offset, at.line, at.column);
            print_hex(out, at.size);
        } else {
            return 1;
        }
    }
    return 0;
}
