// Without a word: the names of the rows. With one: its image.
#include <cstdio>

#include "rows.hpp"

int main(int count, char **words) {
    for (const Row &row : rows())
        if (count < 2)
            std::puts(row.name.c_str());
        else if (row.name == words[1])
            std::fwrite(row.image.data(), 1, row.image.size(), stdout);
}
