#include "runs/fade_counts.h"

uint64_t worst_word(const uint32_t *counts, uint64_t words) {
    uint64_t worst = 0;
    for (uint64_t i = 1; i < words; i++) {
        worst = counts[i] > counts[worst] ? i : worst;
    }
    return worst;
}
