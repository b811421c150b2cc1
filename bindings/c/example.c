/* Prints the bytes of the modules of texts in hexadecimal, or their errors with line and column:
 * example TEXT.. The status is 1 if a text has an error.
 *
 * cc -o example example.c $(pkg-config --cflags --libs rigyomad) */
#include "escapes.h"
#include "rigyomad.h"

#include <stdlib.h>

static uint32_t print_fault(const char *text) {
    struct rigyomad_diagnosis at;
    char message[256];
    uint32_t status = rigyomad_fault(text, strlen(text), message, sizeof message, &at);
    if (status == RIGYOMAD_FAULT) {
        printf("%zu:%zu: ", at.line, at.column);
        print_escaped(message, at.size < sizeof message ? at.size : sizeof message, "");
        printf("\n");
    }
    return status;
}

/* Prints the module of a text. A first call without a buffer returns how many bytes it has. */
static uint32_t convert(const char *text) {
    size_t size = 0;
    uint32_t status = rigyomad_encode(text, strlen(text), NULL, 0, &size);
    if (status != RIGYOMAD_SHORT) {
        return status == RIGYOMAD_FAULT ? print_fault(text) : status;
    }
    uint8_t *bytes = (uint8_t *)malloc(size);
    if (!bytes) {
        return RIGYOMAD_MEMORY;
    }
    status = rigyomad_encode(text, strlen(text), bytes, size, &size);
    for (size_t i = 0; status == RIGYOMAD_DONE && i < size; i++) {
        printf("%02x%s", bytes[i], i + 1 < size ? "" : "\n");
    }
    free(bytes);
    return status;
}

int main(int count, char **words) {
    if (rigyomad_version() != RIGYOMAD_VERSION) {
        fprintf(stderr, "error: rigyomad.h and librigyomad.a are of different versions\n");
        return 100;
    }
    int has_fault = 0;
    for (int i = 1; i < count; i++) {
        uint32_t status = convert(words[i]);
        if (status != RIGYOMAD_DONE && status != RIGYOMAD_FAULT) {
            fprintf(stderr, "error: %s\n", rigyomad_status_text(status));
            return (int)status;
        }
        has_fault |= status == RIGYOMAD_FAULT;
    }
    return has_fault;
}
