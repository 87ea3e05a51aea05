/*
 * Asks formula_cache_run_depth, formula_cache_steps and formula_cache_most_steps about every entry of caches with
 * contents that no edit makes, and writes the greatest depth for each sort of them. Run under sanitizers. The argument
 * is the first number that is no kind of an entry. Ends with 1 where an entry has steps that must have none, or has
 * none and must, or where the most at or below it are fewer, or are there for no entry.
 */
#include "formula.h"

#include <inttypes.h>
#include <stdio.h>
#include <stdlib.h>
#include <string.h>

static formula_cache cache;
static uint64_t steps[FORMULA_TABLE_ENTRIES];

/* A generator of numbers, the same at each run. */
static uint64_t draw(void)
{
    static uint64_t state = 1;
    state = state * UINT64_C(6364136223846793005) + UINT64_C(1442695040888963407);
    return state >> 33;
}

/* The entries that have steps are those that are worked out: functions and members, and what is no kind. */
static void count_steps(void)
{
    uint32_t entry;
    memset(steps, 0xff, sizeof steps);
    formula_cache_steps(&cache, steps);
    for (entry = 0; entry < FORMULA_TABLE_ENTRIES; entry++) {
        int is_worked_out = entry < cache.heads[0] && cache.links[4 * entry] >= 4;
        if ((steps[entry] != 0) != is_worked_out || formula_cache_most_steps(&cache, steps, entry) < steps[entry]) {
            fprintf(stderr, "entry %" PRIu32 ": %" PRIu64 " steps\n", entry, steps[entry]);
            exit(1);
        }
    }
    if (formula_cache_most_steps(&cache, steps, cache.heads[0]) + formula_cache_most_steps(&cache, steps, entry) > 0) {
        fprintf(stderr, "steps below no entry\n");
        exit(1);
    }
}

static unsigned deepest(void)
{
    unsigned most = 0;
    uint32_t entry;
    for (entry = 0; entry <= FORMULA_TABLE_ENTRIES; entry++) {
        unsigned depth = formula_cache_run_depth(&cache, entry);
        most = most > depth ? most : depth;
    }
    count_steps();
    return most;
}

/* Any kinds, links, levels and names, each below a bound. */
static unsigned any_contents(uint64_t kinds, uint64_t links, uint64_t levels, uint64_t names)
{
    size_t at;
    for (at = 0; at < FORMULA_LINKS_CELLS; at++) {
        cache.links[at] = (uint16_t)(draw() % (at % 4 == 0 ? kinds : at % 4 == 3 ? levels : links));
    }
    for (at = 0; at < FORMULA_CELLS_CELLS; at++) {
        cache.cells[at] = draw() % names;
    }
    return deepest();
}

/*
 * Variables, functions, windows and runs of two names and two levels, mostly over entries shortly before: many await
 * three variables.
 */
static unsigned any_runs(void)
{
    static const uint16_t kinds[] = {1, 3, 4, 4, 12, 20, 20};
    size_t at;
    for (at = 0; at < FORMULA_LINKS_CELLS; at++) {
        cache.links[at] = at % 4 == 0   ? kinds[draw() % 7]
                          : at % 4 == 3 ? (uint16_t)(draw() % 2)
                                        : (uint16_t)(at / 4 - draw() % 6);
    }
    for (at = 0; at < FORMULA_CELLS_CELLS; at++) {
        cache.cells[at] = draw() % 2;
    }
    return deepest();
}

/* One more entry, of level 0; a dependency is one more than its number. */
static void put(uint16_t kind, uint64_t key, uint32_t first, uint32_t second)
{
    uint32_t at = cache.heads[0]++;
    cache.links[4 * at] = kind;
    cache.links[4 * at + 1] = (uint16_t)first;
    cache.links[4 * at + 2] = (uint16_t)second;
    cache.links[4 * at + 3] = 0;
    cache.cells[4 * at] = key;
}

/* A full table of runs in one another: each function runs the one before it, over a window of its own variable. */
static unsigned most_runs(void)
{
    memset(&cache, 0, sizeof cache);
    cache.heads[1] = FORMULA_RECORDING_READINGS;
    put(3, 0, 0, 0);
    put(1, 'a', 0, 0);
    put(12, 0, 1, 2);
    put(4, 'a', 2, 0);
    while (cache.heads[0] + 2 <= FORMULA_TABLE_ENTRIES) {
        put(20, 0, 3, cache.heads[0]);
        put(4, 'a', cache.heads[0], 0);
    }
    return deepest();
}

/* The steps of a sum where the head has more readings than there are cells. */
static uint64_t sum_of_too_many(void)
{
    memset(&cache, 0, sizeof cache);
    cache.heads[1] = UINT32_MAX;
    put(3, 0, 0, 0);
    put(14, 0, 1, 0);
    count_steps();
    return steps[1];
}

int main(int argc, char **argv)
{
    uint64_t unknown = argc == 2 ? strtoul(argv[1], NULL, 10) : 0;
    unsigned any = 0;
    unsigned runs = 0;
    unsigned round;
    if (unknown == 0) {
        return 1;
    }
    memset(&cache, 0xff, sizeof cache);
    printf("all bits set: %u\n", deepest());
    for (round = 0; round < 300; round++) {
        uint64_t kinds = round % 2 == 0 ? unknown + 1 : 65536;
        uint64_t links = round % 3 == 0 ? 514 : 65536;
        unsigned depth;
        cache.heads[1] = round % 4 == 0 ? UINT32_MAX : round;
        depth = any_contents(kinds, links, round % 5 == 0 ? 65536 : 3, 3);
        any = any > depth ? any : depth;
        depth = any_runs();
        runs = runs > depth ? runs : depth;
    }
    printf("any contents: %u\n", any);
    printf("any runs: %u\n", runs);
    printf("most runs: %u\n", most_runs());
    printf("most steps: %" PRIu64 "\n", steps[cache.heads[0] - 1]);
    printf("sum of too many readings: %" PRIu64 " steps\n", sum_of_too_many());
    return 0;
}
