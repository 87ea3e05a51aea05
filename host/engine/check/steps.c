/*
 * Writes for each text of the input (texts.h) a line with the steps of every entry held, over as many readings as the
 * first argument says; and those of the numbers past the entries, if one of them is not 0. With a second argument it is
 * the most steps at or below each.
 */
#include "texts.h"

#include <stdlib.h>
#include <string.h>

static uint64_t steps[FORMULA_TABLE_ENTRIES];

static void say_steps(const formula_cache *cache)
{
    uint32_t end = FORMULA_TABLE_ENTRIES;
    uint32_t entry;
    memset(steps, 0xff, sizeof steps);
    formula_cache_steps(cache, steps);
    while (end > cache->heads[0] && steps[end - 1] == 0) {
        end--;
    }
    for (entry = 0; entry < end; entry++) {
        printf("%s%" PRIu64, entry == 0 ? "" : " ", steps[entry]);
    }
    printf("\n");
}

static void say_most_steps(const formula_cache *cache)
{
    uint32_t entry;
    formula_cache_steps(cache, steps);
    for (entry = 0; entry < cache->heads[0]; entry++) {
        printf("%s%" PRIu64, entry == 0 ? "" : " ", formula_cache_most_steps(cache, steps, entry));
    }
    printf("\n");
}

int main(int argc, char **argv)
{
    static const int32_t recording[FORMULA_RECORDING_READINGS] = {0};
    size_t readings = argc > 1 ? strtoul(argv[1], NULL, 10) : 0;
    return edit_texts(recording, readings, argc > 2 ? say_most_steps : say_steps);
}
