// Room that was reserved lasts in C++ too: a receiver and a station take no memory for texts that are no longer. Counts
// the calls of operator new and of the library's heap, and the most bytes that are taken at a time.
#include "lislink.hpp"
#include "lislink_station.hpp"
#include <cstdio>
#include <cstdlib>
#include <string>

static std::size_t calls, live, most;

// Takes memory, with its size before it.
static void *take(std::size_t size) {
    auto at = static_cast<std::size_t *>(std::malloc(size + 64));
    if (at == nullptr)
        std::abort();
    at[0] = size;
    calls++;
    live += size;
    most = std::max(most, live);
    return at + 8;
}

static void drop(void *at) noexcept {
    if (at == nullptr)
        return;
    auto begun = static_cast<std::size_t *>(at) - 8;
    live -= begun[0];
    std::free(begun);
}

void *operator new(std::size_t size) { return take(size); }
void operator delete(void *at) noexcept { drop(at); }
void operator delete(void *at, std::size_t) noexcept { drop(at); }

rattle_tried rattle_alloc(std::size_t size, std::size_t) { return {true, static_cast<std::uint8_t *>(take(size))}; }
void rattle_dealloc(std::uint8_t *at) { drop(at); }
rattle_tried rattle_realloc(std::uint8_t *at, std::size_t kept, std::size_t size, std::size_t align) {
    rattle_tried made = rattle_alloc(size, align);
    std::copy(at, at + std::min(kept, size), made.p);
    drop(at);
    return made;
}

// A frame of a text.
static std::string frame(unsigned number, bool is_last, std::size_t len) {
    return lislink::frame(static_cast<std::uint8_t>(number % 8), is_last, std::string(len, 'a'));
}

// How many texts of 200 bytes are kept.
static unsigned hears(lislink::receiver &receiver, std::string_view bytes) {
    unsigned texts = 0;
    receiver.hear(bytes, [&](std::string_view text) { texts += text.size() == 200; }, [](std::uint8_t) {});
    return texts;
}

static unsigned hears(lislink::station &station, std::string_view bytes) {
    unsigned texts = 0;
    while (!bytes.empty()) {
        auto answer = station.next_answer(bytes);
        texts += answer.text() && answer.text()->size() == 200;
        answer.sent();
    }
    return texts;
}

// Prints what 499 texts take with the room that is reserved.
template <class End> static void of_reserved(const char *name, End &end) {
    std::string bytes = "\x05";
    for (unsigned number = 1; number < 500; number++)
        bytes += frame(number, true, 200);
    end.reserve(200);
    std::size_t before = calls;
    unsigned texts = hears(end, bytes);
    std::printf("%s: %u texts, %zu calls\n", name, texts, calls - before);
}

// Prints the most bytes that texts of 1,048,576 bytes take, with the room for them reserved or not.
static void of_longest(bool is_reserved) {
    std::string bytes = "\x05";
    unsigned number = 1;
    for (std::size_t text : {1048576, 1048576, 1048576})
        for (std::size_t left = text, part; left > 0; left -= part, number++) {
            bool is_begun = left + 127 < text;
            part = is_begun ? std::min<std::size_t>(left, 240) : left == text ? 127 : 128;    // doubled: 255, 510
            bytes += frame(number, part == left, part);
        }
    lislink::receiver receiver;
    std::size_t before = live;
    most = live;
    if (is_reserved)
        receiver.reserve(LIS_LIMIT_TEXT_BYTES);
    hears(receiver, bytes);
    std::printf("%s: %zu bytes\n", is_reserved ? "reserved" : "the most", most - before);
}

int main() {
    lislink::receiver receiver;
    of_reserved("a receiver", receiver);
    lislink::station station(LIS_ROLE_COMPUTER);
    of_reserved("a station", station);
    of_longest(true);
    of_longest(false);
    return 0;
}
