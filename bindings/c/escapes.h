/* Prints text of others in one line, with control characters as escapes, as the command `wat` does:
 * a line feed as \n, and an escape character as \u{1b}. So a name can neither begin a line of a log
 * nor send a command to a terminal. */
#include <stddef.h>
#include <stdint.h>
#include <stdio.h>
#include <string.h>

/* Whether a character is a control character, begins a line, or changes the order of a line. */
static int is_escaped(uint32_t it) {
    int is_mark = it == 0x61c || it == 0x200e || it == 0x200f || (it >= 0x2066 && it <= 0x2069);
    return it < 0x20 || (it >= 0x7f && it < 0xa0) || (it >= 0x2028 && it <= 0x202e) || is_mark;
}

/* Prints a character, which has these bytes. */
static void print_character(uint32_t it, const char *bytes, size_t size, const char *escaped) {
    const char *letter = it ? strchr("\tt\nn\rr", (int)it) : NULL;
    if (it < 0x20 && letter) {
        printf("\\%c", letter[1]);
    } else if (it < 0x80 && it && strchr(escaped, (int)it)) {
        printf("\\%c", (char)it);
    } else if (is_escaped(it) || (*escaped && it >= 0x80)) {
        printf("\\u{%x}", (unsigned)it);
    } else {
        printf("%.*s", (int)size, bytes);
    }
}

/* Prints UTF-8, up to a character that is cut at its end. Characters of `escaped` get a backslash;
 * if there are any, so does what is not ASCII, as between the quotes of an id. */
static void print_escaped(const char *text, size_t size, const char *escaped) {
    for (size_t i = 0, length; i < size; i += length) {
        const unsigned char *at = (const unsigned char *)text + i;
        length = *at < 0x80 ? 1 : *at < 0xe0 ? 2 : *at < 0xf0 ? 3 : 4;
        uint32_t it = length == 1 ? *at : *at & (0x7fu >> length);
        for (size_t k = 1; k < length && k < size - i; k++) {
            it = it << 6 | (at[k] & 0x3f);
        }
        if (length <= size - i) {
            print_character(it, text + i, length, escaped);
        }
    }
}
