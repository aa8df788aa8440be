// A device of one's own, which loses the second addition, and the lines that find it.
#include "pciex_differ.h"

#include <array>
#include <iostream>
#include <vector>

namespace {

using bytes = std::vector<std::uint8_t>;

bytes my_device(int turn, const bytes &request)
{
    static bytes mine(4096);
    const bytes before = mine;
    bytes completion(PCIEX_PACKET);
    completion.resize(pciex_answer(mine.data(), mine.size(), 0, 64, request.data(), request.size(), completion.data(),
                                   completion.size()));
    mine = turn == 1 ? before : mine;
    return completion;
}

}  // namespace

int main()
{
    bytes memory(4096);
    const bytes request = {0x4C, 0, 0, 1, 1, 0, 5, 0, 0, 0, 0, 0x40, 7, 0, 0, 0};
    for (int turn = 0; turn < 3; turn++) {
        const bytes got = my_device(turn, request);
        std::cout << "request " << turn << '\n';
        std::vector<std::uint8_t> expected(PCIEX_PACKET);
        const auto length = pciex_answer(memory.data(), memory.size(), 0, 64, request.data(), request.size(),
                                         expected.data(), expected.size());
        if (const char *field = pciex_differ(request.data(), expected.data(), length, got.data(), got.size()))
            std::cout << "wrong: " << field << '\n';
    }
}
