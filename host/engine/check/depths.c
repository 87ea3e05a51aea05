/* Writes for each text of the input (texts.h) a line with the run depth of every entry held. */
#include "texts.h"

static void say_depths(const formula_cache *cache)
{
    uint32_t entry;
    for (entry = 0; entry < cache->heads[0]; entry++) {
        printf("%s%u", entry == 0 ? "" : " ", formula_cache_run_depth(cache, entry));
    }
    printf("\n");
}

int main(void)
{
    static const int32_t recording[] = {1};
    return edit_texts(recording, 1, say_depths);
}
