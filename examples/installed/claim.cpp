// Which of two sources is claimed? Reads the words of examples/sources.table on standard input and runs them for some priorities.
// With the installed files:
// g++ claim.cpp $(pkg-config --cflags --libs skarnuth) -o claim && skarnuth words sources.table | ./claim
#include <array>
#include <cstdint>
#include <iostream>
#include <iterator>
#include <vector>

#include <skarnuth.h>

// A node has 8 words: its rule, or 32768 + its symbol for a terminal, then its children.
static const std::vector<std::uint16_t> tree = {
    0, 1, 2, 4, 0, 0, 0, 0,         // node 0: controller = level source source
    32770, 0, 0, 0, 0, 0, 0, 0,     // node 1: level, symbol 2
    1, 3, 0, 0, 0, 0, 0, 0,         // node 2: source = line
    32771, 0, 0, 0, 0, 0, 0, 0,     // node 3: line, symbol 3
    1, 5, 0, 0, 0, 0, 0, 0,         // node 4: source = line
    32771, 0, 0, 0, 0, 0, 0, 0,     // node 5: line
};

int main() {
    const std::vector<char> bytes{std::istreambuf_iterator<char>(std::cin), std::istreambuf_iterator<char>()};
    std::vector<std::uint16_t> words;
    for (std::size_t i = 0; i + 1 < bytes.size(); i += 2)
        words.push_back(static_cast<std::uint16_t>(static_cast<unsigned char>(bytes[i]) | static_cast<unsigned char>(bytes[i + 1]) << 8));
    const std::size_t rules = words.size() > 1 ? words[1] : 0;
    std::vector<std::uint64_t> rows(64 * rules);
    std::vector<std::uint16_t> plan(256 + 112 * rules);
    const std::array<std::array<std::int32_t, 3>, 3> given = {{{3, 5, 2}, {5, 5, 2}, {1, 2, 2}}};
    for (const auto &[first, second_priority, threshold] : given) {
        std::vector<std::int32_t> values(tree.size());
        values[8 * 3] = first;
        values[8 * 5] = second_priority;
        values[8 * 1] = threshold;
        std::uint64_t count, number, place, second;
        if (skarnuth_run(words.data(), words.size(), rows.data(), rows.size(), plan.data(), plan.size(), tree.data(), tree.size(), values.data(),
                         values.size(), UINT32_MAX, &count, &number, &place, &second) != SKARNUTH_DONE) {
            std::cerr << "refused " << number << " " << place << " " << second << "\n";
            return 1;
        }
        std::cout << "priorities " << first << " and " << second_priority << ", threshold " << threshold << ": claim " << values[1] << "\n";
    }
}
