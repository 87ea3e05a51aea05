/*
 * The formula engine: open, edit, preview and print, over memory that the caller lends; and evaluate, which needs
 * none. C99 or later, and C++.
 *
 * The engine has no memory of its own. All that it keeps between calls stands in a cache of four slices
 * (24,584 bytes); all else is on the stack during a call. It allocates nothing, keeps no pointer after a
 * call, reads no clock and has no global variable.
 *
 *     static formula_cache cache;
 *     uint16_t places[FORMULA_PLACES];
 *
 *     if (formula_cache_open(&cache, recording, length) != FORMULA_ACCEPTED) ...
 *     formula_edit_answer edit = formula_cache_edit(&cache, text, text_length, places);
 *     if (edit.refusal == FORMULA_ACCEPTED) {
 *         formula_preview_answer seen = formula_cache_preview(&cache, places[part], allowance);
 *         if (seen.refusal != FORMULA_ACCEPTED) ... stop: the same preview would be refused again
 *         else if (seen.finished) ... show it
 *         else ... draw "not yet" and preview again at the next frame
 *     }
 *
 * For a single answer there need be no cache: formula_text_evaluate shows a part of a text over a recording.
 *
 * For every slice:
 *   - it is passed as a pointer to its first cell and its length in cells, not in bytes;
 *   - the pointer is aligned for its type and never null, even where the length is 0;
 *   - the slices of one call do not overlap.
 * And for every call: the task has the stack that docs/INTEGRATION.md names for it. This is all that a caller
 * must see to. Any contents and any lengths are allowed otherwise: the call is then answered, or refused with
 * a number. A refused call has written nothing.
 */
#ifndef FORMULA_H
#define FORMULA_H

#include <stddef.h>
#include <stdint.h>

#ifdef __cplusplus
extern "C" {
#endif

/* Limits, each of the thing that it names. */
#define FORMULA_RECORDING_READINGS 1024 /* most readings of a recording */
#define FORMULA_TEXT_BYTES 1024         /* most bytes of a text */
#define FORMULA_TEXT_PARTS 128          /* most parts of a text */
#define FORMULA_OPEN_MARKS 16           /* most of let, \ and ( open at one point of a text */
#define FORMULA_OPEN_LAMBDAS 2          /* most of \ open at one point of a text */
#define FORMULA_NAME_BYTES 8            /* most bytes of a name */
#define FORMULA_TABLE_ENTRIES 512       /* most entries of a cache */

/* The least lengths of the lent slices, in cells. Cells past them are neither read nor written. */
#define FORMULA_READINGS_CELLS 1024
#define FORMULA_HEADS_CELLS 2
#define FORMULA_LINKS_CELLS 2048
#define FORMULA_CELLS_CELLS 2048
#define FORMULA_PLACES 128

/* The cache in bytes: 4 x 1,024 + 4 x 2 + 2 x 2,048 + 8 x 2,048. */
#define FORMULA_CACHE_BYTES 24584

/*
 * Refusals. Where more than one applies: 1 to 4 by number; then, of 5 to 12, the one with the lowest byte
 * place, and at one place the lowest number; then 13 or 14; then 15; then 16. Number 11 is reserved: it never
 * occurs, since an inner \ hides an outer one of its name.
 */
enum formula_refusal {
    FORMULA_ACCEPTED = 0,
    FORMULA_REFUSAL_TEXT_TOO_LONG = 1,      /* edit, evaluate: text over 1,024 bytes */
    FORMULA_REFUSAL_RECORDING_TOO_LONG = 2, /* open, evaluate: over 1,024 readings */
    FORMULA_REFUSAL_MEMORY_TOO_SMALL = 3,   /* all but evaluate: the cache, or the list of places, is too short */
    FORMULA_REFUSAL_CACHE_ILL_FORMED = 4,   /* edit, preview, print: ill-formed contents; open it again */
    FORMULA_REFUSAL_UNGRAMMATICAL = 5,      /* edit, evaluate: no grammatical text goes on with this token or end */
    FORMULA_REFUSAL_NUMBER_OUTSIDE = 6,     /* edit, evaluate: number outside -2147483648 to 2147483647 */
    FORMULA_REFUSAL_NAME_TOO_LONG = 7,      /* edit, evaluate: name over 8 bytes, not after a dot */
    FORMULA_REFUSAL_DATA_BOUND = 8,         /* edit, evaluate: `data` as the name of a let or \ */
    FORMULA_REFUSAL_WRONG_CALL = 9,         /* edit, evaluate: unknown member, or too few or too many arguments */
    FORMULA_REFUSAL_THIRD_LAMBDA = 10,      /* edit, evaluate: third open \ */
    FORMULA_REFUSAL_LAMBDA_REPEATED = 11,   /* never: it was a \ with the name of a \ around it */
    FORMULA_REFUSAL_TEXT_LIMIT = 12,        /* edit, evaluate: 17th open mark or 129th part */
    FORMULA_REFUSAL_TABLE_FULL = 13,        /* edit: entries held plus new ones exceed 512 */
    FORMULA_REFUSAL_NO_SUCH_ENTRY = 14,     /* preview, print: no entry of this number; evaluate: no such part */
    FORMULA_REFUSAL_TEXT_UNFIT = 15,        /* print: the lent bytes are too few, or an edit would give 1 or 5 to 12 */
    FORMULA_REFUSAL_OTHER_FORM = 16         /* print: the text by itself means another part, as where one waits */
};

/*
 * What an entry shows. The number that div gives is the greatest whole one not above the quotient: -7.div(2) is
 * -4, where -7 / 2 is -3 in C. The two names of a delayed entry are equal where it awaits two variables of one
 * spelling: in `\a -> let x = a in \a -> x.add(a)` the part x.add(a) awaits a and a.
 */
enum formula_kind {
    FORMULA_KIND_NUMBER = 1,   /* first: the number */
    FORMULA_KIND_WINDOW = 2,   /* first: the start, counted in the recording; second: the length */
    FORMULA_KIND_FUNCTION = 3, /* name: the name of its variable */
    FORMULA_KIND_DELAYED = 4,  /* name, other: the names that it awaits, which may be equal; 0 for none */
    FORMULA_KIND_MISSING = 5   /* first: the reason */
};

/* Why nothing is shown. */
enum formula_reason {
    FORMULA_REASON_UNBOUND_NAME = 1,
    FORMULA_REASON_WRONG_KIND = 2,
    FORMULA_REASON_DIVISION_BY_ZERO = 3,
    FORMULA_REASON_BEYOND_32_BITS = 4,
    FORMULA_REASON_OUTSIDE = 5 /* index outside, no such stretch, least or greatest of no readings */
};

/* The answer to an edit, 20 bytes. A field that has no value is 0. */
typedef struct {
    uint32_t refusal; /* enum formula_refusal */
    uint32_t place;   /* refused under 5 to 12: the byte of the text; the end's is the text's length */
    uint32_t whole;   /* the entry of the whole text */
    uint32_t parts;   /* how many parts the text has */
    uint32_t added;   /* how many entries are new */
} formula_edit_answer;

/* The answer to a preview, 40 bytes. A field that has no value is 0. */
typedef struct {
    uint32_t refusal;  /* enum formula_refusal */
    uint32_t finished; /* 1: nothing is left, and the fields from kind on are set; 0: not yet, or refused */
    uint32_t worked;   /* how many entries this call worked out */
    uint32_t kind;     /* enum formula_kind */
    int32_t first;
    uint32_t second;
    uint64_t name; /* packed; see formula_name_text */
    uint64_t other;
} formula_preview_answer;

/* The answer to a print, 8 bytes. */
typedef struct {
    uint32_t refusal; /* enum formula_refusal */
    uint32_t length;  /* how many bytes the text has; 0 where refused */
} formula_print_answer;

/* The answer to an evaluation, 40 bytes. A field that has no value is 0. */
typedef struct {
    uint32_t refusal; /* enum formula_refusal */
    uint32_t place;   /* refused under 5 to 12: the byte of the text; the end's is the text's length */
    uint32_t parts;   /* how many parts the text has */
    uint32_t kind;    /* enum formula_kind; the fields from here on are those of a finished preview */
    int32_t first;
    uint32_t second;
    uint64_t name;
    uint64_t other;
} formula_evaluate_answer;

/*
 * Empties the cache and copies in a recording of 0 to 1,024 readings. The cache may hold anything before.
 * Writes: the readings of the recording, and both heads. The links and cells are not touched.
 * Gives 0, or the refusal's number: 2, 3.
 */
uint32_t formula_open(const int32_t *recording, size_t recording_length, int32_t *readings,
                      size_t readings_length, uint32_t *heads, size_t heads_length, const uint16_t *links,
                      size_t links_length, const uint64_t *cells, size_t cells_length);

/*
 * Reads a text and binds it. Each part (let, \, dot, name in use, number; in the order of these marks) gets
 * the number of its entry at its place. Equal parts have one entry, whichever text they stand in, so that
 * results are kept from edit to edit. A function written inside another is not equal to its twin outside of any:
 * each has an entry of its own. Nothing is worked out.
 * Writes: places 0 to parts - 1, the first head, the links and cells of the new entries.
 * Refusals: 1, 3, 4, 5 to 10 and 12 with a byte place, 13.
 */
formula_edit_answer formula_edit(const uint8_t *text, size_t text_length, uint16_t *places,
                                 size_t places_length, const int32_t *readings, size_t readings_length,
                                 uint32_t *heads, size_t heads_length, uint16_t *links, size_t links_length,
                                 uint64_t *cells, size_t cells_length);

/*
 * Works out the entries that an entry depends on and then the entry itself, lowest number first, as far as
 * they are not worked out yet and at most `allowance` of them. Says what the entry shows if none is left.
 * Work is kept: repeated previews with an allowance of 1 or more come to an end.
 * Writes: the kept cells of the entries that this call worked out.
 * Refusals: 3, 4, 14.
 */
formula_preview_answer formula_preview(uint32_t entry, uint32_t allowance, const int32_t *readings,
                                       size_t readings_length, const uint32_t *heads, size_t heads_length,
                                       const uint16_t *links, size_t links_length, uint64_t *cells,
                                       size_t cells_length);

/*
 * Writes an entry in full, as a text: what its lets stand for is put in their place. The text has no blanks but one
 * on either side of `->`, no brackets that it can do without, and shortest decimals. An edit of it gives this very
 * entry again and adds none: so a function that was written inside another is refused by itself, with 16. Nothing is
 * worked out.
 * Writes: bytes 0 to length - 1, with no zero behind them. The bytes past them keep their contents.
 * Refusals: 3, 4, 14, 15, 16.
 */
formula_print_answer formula_print(uint32_t entry, uint8_t *bytes, size_t bytes_length, const int32_t *readings,
                                   size_t readings_length, const uint32_t *heads, size_t heads_length,
                                   const uint16_t *links, size_t links_length, const uint64_t *cells,
                                   size_t cells_length);

/*
 * Shows a part of a text over a recording, without a cache: what a cache that is opened over the recording and edited
 * with the text shows for the part in the end. `place` is the part's place in the text, counted as formula_edit does.
 * Nothing is kept, so that each call costs as much as reading the text and working the part out once; nothing
 * interrupts it. The recording is read where it lies, and not copied: a window's start is counted in it.
 * Writes: nothing.
 * Refusals, in this order: 1, 2, 5 to 10 and 12 with a byte place, 14 for a place not below the number of parts.
 */
formula_evaluate_answer formula_evaluate(const uint8_t *text, size_t text_length, const int32_t *recording,
                                         size_t recording_length, uint32_t place);

/*
 * A whole cache. Only open it, edit, preview and print it by the calls below; what stands in it is described in
 * docs/MEMORY.md. The readings of a window that a preview shows are readings[first] up to
 * readings[first + second - 1].
 */
typedef struct {
    uint64_t cells[FORMULA_CELLS_CELLS];
    int32_t readings[FORMULA_READINGS_CELLS];
    uint32_t heads[FORMULA_HEADS_CELLS];
    uint16_t links[FORMULA_LINKS_CELLS];
} formula_cache;

/* The sizes that the engine was proved with. */
#if defined(__cplusplus) && __cplusplus >= 201103L
#define FORMULA_ASSERT(name, condition) static_assert(condition, #name)
#elif !defined(__cplusplus) && defined(__STDC_VERSION__) && __STDC_VERSION__ >= 201112L
#define FORMULA_ASSERT(name, condition) _Static_assert(condition, #name)
#else
#define FORMULA_ASSERT(name, condition) typedef char formula_assert_##name[(condition) ? 1 : -1]
#endif

FORMULA_ASSERT(edit_answer_has_20_bytes, sizeof(formula_edit_answer) == 20);
FORMULA_ASSERT(preview_answer_has_40_bytes, sizeof(formula_preview_answer) == 40);
FORMULA_ASSERT(names_are_at_24_and_32, offsetof(formula_preview_answer, name) == 24 &&
                                           offsetof(formula_preview_answer, other) == 32);
FORMULA_ASSERT(print_answer_has_8_bytes, sizeof(formula_print_answer) == 8);
FORMULA_ASSERT(evaluate_answer_has_40_bytes, sizeof(formula_evaluate_answer) == 40);
FORMULA_ASSERT(kind_is_at_12_and_names_are_at_24_and_32, offsetof(formula_evaluate_answer, kind) == 12 &&
                                                             offsetof(formula_evaluate_answer, name) == 24 &&
                                                             offsetof(formula_evaluate_answer, other) == 32);
FORMULA_ASSERT(cache_has_its_bytes, sizeof(formula_cache) == FORMULA_CACHE_BYTES);
FORMULA_ASSERT(cells_make_up_the_cache,
               4 * FORMULA_READINGS_CELLS + 4 * FORMULA_HEADS_CELLS + 2 * FORMULA_LINKS_CELLS +
                       8 * FORMULA_CELLS_CELLS ==
                   FORMULA_CACHE_BYTES);
FORMULA_ASSERT(every_reading_has_a_cell, FORMULA_READINGS_CELLS == FORMULA_RECORDING_READINGS);
FORMULA_ASSERT(an_entry_has_four_links, FORMULA_LINKS_CELLS == 4 * FORMULA_TABLE_ENTRIES);
FORMULA_ASSERT(an_entry_has_four_cells, FORMULA_CELLS_CELLS == 4 * FORMULA_TABLE_ENTRIES);
FORMULA_ASSERT(every_part_has_a_place, FORMULA_PLACES == FORMULA_TEXT_PARTS);

/* As formula_open. `recording` may be null where its length is 0, and must not lie within the cache. */
static inline uint32_t formula_cache_open(formula_cache *cache, const int32_t *recording,
                                          size_t recording_length)
{
    static const int32_t none = 0;
    return formula_open(recording != NULL ? recording : &none, recording_length, cache->readings,
                        FORMULA_READINGS_CELLS, cache->heads, FORMULA_HEADS_CELLS, cache->links,
                        FORMULA_LINKS_CELLS, cache->cells, FORMULA_CELLS_CELLS);
}

/* As formula_edit. The text needs no zero at its end, and may be null where its length is 0. */
static inline formula_edit_answer formula_cache_edit(formula_cache *cache, const char *text,
                                                     size_t text_length, uint16_t places[FORMULA_PLACES])
{
    return formula_edit((const uint8_t *)(text != NULL ? text : ""), text_length, places, FORMULA_PLACES,
                        cache->readings, FORMULA_READINGS_CELLS, cache->heads, FORMULA_HEADS_CELLS,
                        cache->links, FORMULA_LINKS_CELLS, cache->cells, FORMULA_CELLS_CELLS);
}

/* As formula_preview. */
static inline formula_preview_answer formula_cache_preview(formula_cache *cache, uint32_t entry,
                                                           uint32_t allowance)
{
    return formula_preview(entry, allowance, cache->readings, FORMULA_READINGS_CELLS, cache->heads,
                           FORMULA_HEADS_CELLS, cache->links, FORMULA_LINKS_CELLS, cache->cells,
                           FORMULA_CELLS_CELLS);
}

/* As formula_print. FORMULA_TEXT_BYTES bytes are room for any text that is printed. */
static inline formula_print_answer formula_cache_print(const formula_cache *cache, uint32_t entry, char *text,
                                                       size_t text_length)
{
    return formula_print(entry, (uint8_t *)text, text_length, cache->readings, FORMULA_READINGS_CELLS,
                         cache->heads, FORMULA_HEADS_CELLS, cache->links, FORMULA_LINKS_CELLS, cache->cells,
                         FORMULA_CELLS_CELLS);
}

/* As formula_evaluate. The text needs no zero at its end; it and the recording may be null where their length is 0. */
static inline formula_evaluate_answer formula_text_evaluate(const char *text, size_t text_length,
                                                            const int32_t *recording, size_t recording_length,
                                                            uint32_t place)
{
    static const int32_t none = 0;
    return formula_evaluate((const uint8_t *)(text != NULL ? text : ""), text_length,
                            recording != NULL ? recording : &none, recording_length, place);
}

/*
 * What formula_cache_run_depth finds out about an entry. A nest is how many runs are under way at once. None is
 * over 255: each run has a member and a function among the entries, and one within another a variable too.
 */
typedef struct {
    uint16_t awaited[2]; /* the variables that the entry awaits, one more than their numbers; 0 for none */
    uint8_t within[2];   /* for each: the deepest nest of what a run that sets it works out again, here or below */
    uint8_t run;         /* the nest of a run of this entry, where it is a function */
    uint8_t depth;       /* the deepest nest here or below */
} formula_nest;

static inline uint8_t formula_nest_deeper(uint8_t one, uint8_t other)
{
    return one > other ? one : other;
}

/* The entry awaits the variable. A third one is dropped: no accepted cache has an entry that awaits three. */
static inline void formula_nest_await(formula_nest *nest, uint16_t variable, uint8_t within)
{
    unsigned slot = nest->awaited[0] == 0 || nest->awaited[0] == variable ? 0 : 1;
    if (nest->awaited[slot] == 0 || nest->awaited[slot] == variable) {
        nest->awaited[slot] = variable;
        nest->within[slot] = formula_nest_deeper(nest->within[slot], within);
    }
}

/* Whether entry `at` is the function of this variable: it has its name and its level. */
static inline int formula_nest_binds(const formula_cache *cache, uint32_t at, uint16_t variable)
{
    uint32_t other = (uint32_t)variable - 1;
    return cache->links[4 * at] == 4 && cache->cells[4 * at] == cache->cells[4 * other] &&
           cache->links[4 * at + 3] == cache->links[4 * other + 3];
}

/* Entry `at` depends on another. It awaits what that one does, but for a function's own variable. */
static inline void formula_nest_depend(const formula_cache *cache, uint32_t at, const formula_nest *below,
                                       formula_nest *nest)
{
    unsigned slot;
    for (slot = 0; slot < 2 && below->awaited[slot] != 0; slot++) {
        uint16_t variable = below->awaited[slot];
        if (formula_nest_binds(cache, at, variable)) {
            nest->run = (uint8_t)(1 + below->within[slot]);
        } else {
            formula_nest_await(nest, variable, below->within[slot]);
        }
    }
    nest->depth = formula_nest_deeper(nest->depth, below->depth);
}

/* The nest of entry `at` if it runs a function (kinds 18 to 20) over what can be a window (3, 11, 12), or 0. */
static inline uint8_t formula_nest_run(const formula_cache *cache, const formula_nest *nests, uint32_t at)
{
    const uint16_t *links = cache->links + 4 * at;
    uint16_t receiver, argument;
    if (links[0] < 18 || links[0] > 20 || links[1] < 1 || links[1] > at || links[2] < 1 || links[2] > at) {
        return 0;
    }
    receiver = cache->links[4 * (links[1] - 1)];
    argument = cache->links[4 * (links[2] - 1)];
    if ((receiver != 3 && receiver != 11 && receiver != 12) || argument != 4) {
        return 0;
    }
    return nests[links[2] - 1].run;
}

/* Entry `at`, from those before it. */
static inline formula_nest formula_nest_at(const formula_cache *cache, const formula_nest *nests, uint32_t at)
{
    /* The entry's kind, and one more than each dependency's number, which is lower; 0 for none. */
    const uint16_t *links = cache->links + 4 * at;
    formula_nest nest = {{0, 0}, {0, 0}, 1, 0};
    uint8_t run = formula_nest_run(cache, nests, at);
    unsigned link;
    if (links[0] == 1) {
        formula_nest_await(&nest, (uint16_t)(at + 1), 0);
    }
    for (link = 1; link <= 2; link++) {
        if (links[link] >= 1 && links[link] <= at) {
            formula_nest_depend(cache, at, &nests[links[link] - 1], &nest);
        }
    }
    /* A run that sets a variable which the entry awaits works the entry out again. */
    nest.within[0] = formula_nest_deeper(nest.within[0], run);
    nest.within[1] = formula_nest_deeper(nest.within[1], run);
    nest.depth = formula_nest_deeper(nest.depth, run);
    return nest;
}

/*
 * How deep runs of functions (countWhere, longestRun, sumBy) stand in one another when an entry is previewed: no
 * more are under way at once. For a text it is at most 22 (docs/NESTING.md). A run stands in another where its member
 * awaits the other's variable. What does not await it keeps its result, so that runs one after another count as one.
 * An allowance counts entries, not time, and nothing interrupts an entry: over r readings one of depth d may take r
 * to the power of d runs, and several times that if a function's body has several runs in it. Ask this before the
 * first preview; docs/INTEGRATION.md has the time of a run, and the stack for each depth.
 * It reads the entries up to this one and takes about 4 KB of stack. Over contents that no cache has it still ends,
 * and gives some number; 0 for an entry that is not there.
 */
static inline unsigned formula_cache_run_depth(const formula_cache *cache, uint32_t entry)
{
    formula_nest nests[FORMULA_TABLE_ENTRIES];
    uint32_t at;
    if (entry >= FORMULA_TABLE_ENTRIES || entry >= cache->heads[0]) {
        return 0;
    }
    for (at = 0; at <= entry; at++) {
        nests[at] = formula_nest_at(cache, nests, at);
    }
    return nests[entry].depth;
}

/* The steps of beginning a frame of the stack, for a run or to judge a function. */
#define FORMULA_STEPS_FRAME 40

/* Sums and products of steps stop at the greatest number. */
static inline uint64_t formula_steps_sum(uint64_t one, uint64_t other)
{
    return one > UINT64_MAX - other ? UINT64_MAX : one + other;
}

static inline uint64_t formula_steps_product(uint64_t one, uint64_t other)
{
    return other != 0 && one > UINT64_MAX / other ? UINT64_MAX : one * other;
}

/* The variable of the function that entry `at` is, one more than its number, if the body awaits it; else 0. */
static inline uint16_t formula_steps_variable(const formula_cache *cache, const formula_nest *nests, uint32_t at)
{
    uint16_t body = cache->links[4 * at + 1];
    unsigned slot;
    if (body < 1 || body > at) {
        return 0;
    }
    for (slot = 0; slot < 2; slot++) {
        uint16_t variable = nests[body - 1].awaited[slot];
        if (variable != 0 && formula_nest_binds(cache, at, variable)) {
            return variable;
        }
    }
    return 0;
}

/* Marks those that entry `at` depends on, if they await the variable. */
static inline void formula_steps_reach(const formula_cache *cache, const formula_nest *nests, uint16_t variable,
                                       uint32_t at, uint8_t reached[FORMULA_TABLE_ENTRIES])
{
    unsigned link;
    for (link = 1; link <= 2; link++) {
        uint16_t below = cache->links[4 * at + link];
        if (below >= 1 && below <= at &&
            (nests[below - 1].awaited[0] == variable || nests[below - 1].awaited[1] == variable)) {
            reached[below - 1] = 1;
        }
    }
}

/*
 * The steps of a body each time that a variable which it awaits is set: those of the entries that await the variable
 * and that the body reaches through such entries, each once. The variable itself, the lowest of them, is not counted.
 */
static inline uint64_t formula_steps_body(const formula_cache *cache, const formula_nest *nests,
                                          const uint64_t *steps, uint32_t body, uint16_t variable)
{
    uint8_t reached[FORMULA_TABLE_ENTRIES] = {0};
    uint64_t sum = 0;
    uint32_t at;
    reached[body] = 1;
    for (at = body; at >= variable; at--) {
        if (reached[at]) {
            sum = formula_steps_sum(sum, steps[at]);
            formula_steps_reach(cache, nests, variable, at, reached);
        }
    }
    return sum;
}

/* The steps of entry `at`, a function: its body is judged once, with the variable delayed. */
static inline uint64_t formula_steps_function(const formula_cache *cache, const formula_nest *nests,
                                              const uint64_t *steps, uint32_t at)
{
    uint16_t variable = formula_steps_variable(cache, nests, at);
    if (variable == 0) {
        return 1;
    }
    return formula_steps_sum(1 + FORMULA_STEPS_FRAME,
                             formula_steps_body(cache, nests, steps, cache->links[4 * at + 1] - 1u, variable));
}

/*
 * The steps of a member that runs a function, from the function's own. If those are 1, the body does not await the
 * variable and is not worked out again; else they are 1, a frame's and the body's. If they are the greatest number, so
 * are the member's, unless there are no readings.
 */
static inline uint64_t formula_steps_run(uint64_t function, uint32_t readings)
{
    uint64_t body = function > 1 ? function - 1 - FORMULA_STEPS_FRAME : 0;
    return formula_steps_sum(1 + FORMULA_STEPS_FRAME, formula_steps_product(readings, 1 + body));
}

/* The steps of a member that runs no function, by its kind. */
static inline uint64_t formula_steps_member(uint16_t kind, uint32_t readings)
{
    switch (kind) {
    case 11: /* skip, take, at */
    case 12:
    case 17:
        return 2;
    case 14: /* sum, min, max */
    case 15:
    case 16:
        return 1 + (readings + 31) / 32;
    case 21: /* bestSum, bestAt */
    case 22:
        return 1 + (readings + 7) / 8;
    default:
        return 1;
    }
}

/* The steps of entry `at`, from those before it. */
static inline uint64_t formula_steps_at(const formula_cache *cache, const formula_nest *nests, const uint64_t *steps,
                                        uint32_t at)
{
    const uint16_t *links = cache->links + 4 * at;
    uint32_t readings =
        cache->heads[1] < FORMULA_RECORDING_READINGS ? cache->heads[1] : FORMULA_RECORDING_READINGS;
    if (links[0] < 4) {
        return 0;
    }
    if (links[0] == 4) {
        return formula_steps_function(cache, nests, steps, at);
    }
    if (formula_nest_run(cache, nests, at) != 0) {
        return formula_steps_run(steps[links[2] - 1], readings);
    }
    return formula_steps_member(links[0], readings);
}

/*
 * For each entry held, a bound on the steps of working it out by itself, once those that it depends on are worked out;
 * 0 for numbers past the entries held. Nothing interrupts an entry: this bounds the time that a preview takes for it.
 * A step is at most about the time of a member on two numbers in a run that goes reading by reading; docs/INTEGRATION.md
 * has figures. Over r readings, with quotients rounded up, the steps are
 *   - 0 for a number, a name and the recording;
 *   - 2 for skip, take and at;
 *   - 1 + r / 32 for sum, min and max;
 *   - 1 + r / 8 for bestSum and bestAt;
 *   - 1 + a frame's + the body's for a function whose body awaits its variable;
 *   - 1 + a frame's + r x (1 + the body's) for a member that runs a function over what can be a window;
 *   - 1 for any other.
 * The body's are those of all in it that awaits the variable, each entry once; what else it needs keeps its result. A
 * number over UINT64_MAX is given as that.
 * Ask this after an edit, and don't preview a part if an entry at or below it may take too long, by
 * formula_cache_most_steps. For the stack there is formula_cache_run_depth. This call takes about 4.7 KB of stack,
 * besides the steps; and a pass over the entries, with one for each function from its body down to its variable: 5
 * microseconds for 476 entries with one function, 70 for 485 with 240. Over contents that no cache has it still ends,
 * and gives some numbers.
 */
static inline void formula_cache_steps(const formula_cache *cache, uint64_t steps[FORMULA_TABLE_ENTRIES])
{
    formula_nest nests[FORMULA_TABLE_ENTRIES];
    uint32_t at;
    for (at = 0; at < FORMULA_TABLE_ENTRIES && at < cache->heads[0]; at++) {
        nests[at] = formula_nest_at(cache, nests, at);
        steps[at] = formula_steps_at(cache, nests, steps, at);
    }
    for (; at < FORMULA_TABLE_ENTRIES; at++) {
        steps[at] = 0;
    }
}

/*
 * The most steps of one entry among those that a preview of this entry may work out: itself and all below it. The
 * steps are those that formula_cache_steps gives for the cache. It takes 0.5 KB of stack and a pass over the entries up
 * to this one. Over contents that no cache has it still ends, and gives some number; 0 for an entry that is not there.
 */
static inline uint64_t formula_cache_most_steps(const formula_cache *cache,
                                                const uint64_t steps[FORMULA_TABLE_ENTRIES], uint32_t entry)
{
    uint8_t reached[FORMULA_TABLE_ENTRIES] = {0};
    uint64_t most = 0;
    uint32_t at;
    unsigned link;
    if (entry >= FORMULA_TABLE_ENTRIES || entry >= cache->heads[0]) {
        return 0;
    }
    reached[entry] = 1;
    for (at = entry + 1; at-- > 0;) {
        for (link = 1; link <= 2 && reached[at]; link++) {
            uint16_t below = cache->links[4 * at + link];
            if (below >= 1 && below <= at) {
                reached[below - 1] = 1;
            }
        }
        most = reached[at] && steps[at] > most ? steps[at] : most;
    }
    return most;
}

/*
 * Writes a packed name as text, with a zero at its end. A name is packed in base 256, its first byte
 * highest, and is 0 where there is none: that gives the empty text. Two packed names are equal exactly
 * if their texts are.
 */
static inline void formula_name_text(uint64_t name, char text[FORMULA_NAME_BYTES + 1])
{
    unsigned length = 0;
    unsigned at;
    uint64_t rest;
    for (rest = name; rest != 0; rest /= 256) {
        length++;
    }
    text[length] = '\0';
    for (at = length; at > 0; at--) {
        text[at - 1] = (char)(name % 256);
        name /= 256;
    }
}

#ifdef __cplusplus
}
#endif

#endif
