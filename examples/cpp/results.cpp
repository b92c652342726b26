// Prints the test, value and unit of each result: results < kept.records. A message that breaks off is reported and
// dropped, and its results up to there are printed.
#include <lislink.hpp>

#include <iostream>
#include <unistd.h>

// Prints the results that these bytes complete.
static void print(lislink::reader &reader, std::string_view bytes) {
    while (!bytes.empty())
        try {
            for (auto &record : reader.feed(bytes))
                if (record.letter() == 'R')    // part(field, repeat, component); a part that isn't there is empty
                    std::cout << record.part(3, 0, 3).value_or("") << ' ' << record.part(4).value_or("") << ' '
                              << record.part(5).value_or("") << '\n';
            bytes = {};
        } catch (const lislink::message_error &fault) {
            std::cerr << fault.what() << '\n';
            bytes = reader.resume();    // on from the next header
        }
}

int main() {
    lislink::reader reader;
    char bytes[4096];
    for (ssize_t got; (got = read(0, bytes, sizeof bytes)) > 0;)
        print(reader, {bytes, static_cast<std::size_t>(got)});
    try {
        reader.finish();
    } catch (const lislink::message_error &fault) {
        std::cerr << fault.what() << '\n';
        return 1;
    }
    return 0;
}
