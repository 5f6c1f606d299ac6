// What the fuzzers that compare the library with a reader have in common: how often each number was answered, and the
// end of a run in which the two differ.
#ifndef ANSWERS_HPP
#define ANSWERS_HPP

#include <array>
#include <cstddef>
#include <cstdio>
#include <cstdlib>
#include <numeric>

inline std::array<unsigned long, 38> answers; // by number, 0 for accepted; 37 is the largest

inline void print_answers() {
    std::fprintf(stderr, "answers:");
    for (std::size_t number = 0; number < answers.size(); ++number)
        if (answers[number] > 0)
            std::fprintf(stderr, " %zu:%lu", number, answers[number]);
    std::fprintf(stderr, ", in all: %lu\n", std::accumulate(answers.begin(), answers.end(), 0ul));
}

inline void demand(bool agrees, const char *what) {
    if (agrees)
        return;
    std::fprintf(stderr, "the library and the reader differ: %s\n", what);
    std::abort();
}

#endif
