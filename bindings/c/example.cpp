// Prints the bytes of the modules of texts in hexadecimal, or their faults with line and column, in
// C++11 and later: example TEXT.. The status is 1 if a text has an error.
//
// c++ -o example example.cpp $(pkg-config --cflags --libs rigyomad), or with CMake:
//
//     find_package(rigyomad REQUIRED)
//     add_executable(example example.cpp)
//     target_link_libraries(example rigyomad::rigyomad)
#include "escapes.h"
#include "rigyomad.h"

#include <algorithm>
#include <new>
#include <stdexcept>
#include <string>
#include <vector>

// Why a text has no bytes. what() is the message up to a zero byte, which a name may have.
struct Fault : std::runtime_error {
    Fault(const std::string &message, const rigyomad_diagnosis &at)
        : std::runtime_error(message), message(message), at(at) {}
    std::string message;
    rigyomad_diagnosis at;
};

// What is wrong with a text.
static Fault fault_of(const std::string &text) {
    rigyomad_diagnosis at = {};
    std::string message(256, '\0');
    std::uint32_t status;
    do {
        message.resize(std::max(message.size(), at.size));
        status = rigyomad_fault(text.data(), text.size(), &message[0], message.size(), &at);
    } while (at.size > message.size());
    if (status == RIGYOMAD_MEMORY) {
        throw std::bad_alloc();
    }
    message.resize(at.size);
    return Fault(message, at);
}

// The bytes of the module of a text.
static std::vector<std::uint8_t> parse(const std::string &text) {
    std::vector<std::uint8_t> bytes(text.size());
    std::size_t size = 0;
    std::uint32_t status;
    do {
        bytes.resize(std::max(bytes.size(), size));
        status = rigyomad_encode(text.data(), text.size(), bytes.data(), bytes.size(), &size);
    } while (status == RIGYOMAD_SHORT);
    if (status == RIGYOMAD_MEMORY) {
        throw std::bad_alloc();
    }
    if (status != RIGYOMAD_DONE) {
        throw fault_of(text);
    }
    bytes.resize(size);
    return bytes;
}

int main(int count, char **words) {
    int status = 0;
    for (int i = 1; i < count; i++) {
        try {
            for (std::uint8_t byte : parse(words[i])) {
                std::printf("%02x", byte);
            }
        } catch (const Fault &fault) {
            std::printf("%zu:%zu: ", fault.at.line, fault.at.column);
            print_escaped(fault.message.data(), fault.message.size(), "");
            status = 1;
        }
        std::printf("\n");
    }
    return status;
}
