// Calls the library alone, on the row and as often as the words say.
#include <cstdlib>

#include "contenders.hpp"
#include "rows.hpp"

int main(int count, char **words) {
    static int64_t results[6 * 512];
    static uint32_t arcs[512];
    for (const Row &row : rows())
        if (count == 3 && row.name == words[1])
            for (int t = std::atoi(words[2]); t > 0; t--) ours(row.image.data(), row.image.size(), results, 6 * 512, arcs, 512);
}
