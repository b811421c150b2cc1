// Prints the line, the column and the message of the error of a text, in C++11 and later: fault
// TEXT. The status is 1 if there is one.
//
// c++ -o fault fault.cpp $(pkg-config --cflags --libs rigyomad)
#include "rigyomad.h"

#include <algorithm>
#include <cstdio>
#include <string>

int main(int count, char **words) {
    const std::string text = count > 1 ? words[1] : "";
    char message[256];
    rigyomad_diagnosis at = {};
    uint32_t status = rigyomad_fault(text.data(), text.size(), message, sizeof message, &at);
    if (status != RIGYOMAD_FAULT) {
        std::printf("%s\n", rigyomad_status_text(status));
        return static_cast<int>(status);
    }
    int size = static_cast<int>(std::min(at.size, sizeof message));
    std::printf("%zu:%zu: %.*s\n", at.line, at.column, size, message);
    return 1;
}
