/*
 * The state of the live screen: the formula line, what the last key did, and what is shown. Keys change it and frames
 * of work carry it on; drawing only reads it.
 */
#ifndef LIVE_H
#define LIVE_H

#include "keys.h"
#include "line.h"
#include "session.h"

/*
 * Steps that working out one entry may take, by formula_cache_steps: nothing interrupts an entry, so that a key waits
 * for it. Parts that may take more are turned away. docs/INTEGRATION.md has the time of a step.
 */
#define MOST_STEPS 8000000

/*
 * Steps of one frame: a key waits for the rest of it. An entry that takes more has a frame of its own. A preview counts
 * for the test of the cache besides.
 */
#define FRAME_STEPS 1000000
#define PREVIEW_STEPS 1000

/* Steps of the frame that belongs to a key: many keys may come at once, and each has its own. */
#define KEY_STEPS 100000

/* Why not all was inserted, or why the cache was opened again. */
enum notice { NOTICE_NONE, NOTICE_LINE_FULL, NOTICE_TABLE_FULL, NOTICE_CACHE_DAMAGED };

struct live {
    struct session *session;
    const char *name; /* of the recording */
    struct line line;
    bool is_taken;    /* whether the line is the formula that is shown; else it was refused */
    struct edit edit; /* of the last key */
    enum notice notice;
    uint32_t worked;    /* entries worked out since the last key */
    uint32_t at_cursor; /* the part at the cursor */
    unsigned depths[FORMULA_TEXT_PARTS];     /* of each part, the deepest nest of runs */
    uint64_t most_steps[FORMULA_TEXT_PARTS]; /* and the most steps that an entry at or below it takes */
    uint64_t steps[FORMULA_TABLE_ENTRIES];
    formula_preview_answer before[FORMULA_TEXT_PARTS]; /* what a part showed before the last key, if it is finished */
    char full[FORMULA_TEXT_BYTES];                     /* the part at the cursor as a text of its own */
    formula_print_answer printed;
    bool has_left;
};

/* How far the work for the formula that is shown has come, in entries. */
struct progress {
    uint32_t entries; /* of the formula */
    uint32_t left;    /* that are still to be worked out */
    uint32_t away;    /* that are turned away */
};

/* Starts with an empty line over a session that was opened. */
void live_start(struct live *live, struct session *session, const char *name);

/*
 * Takes a key: changes the line, edits and previews, within the steps of a key. The bytes of a paste, and the byte that
 * was typed, are in `keys`.
 */
void live_key(struct live *live, enum key key, const struct keys *keys);

/* Works for one frame. Gives whether there is more to work out. */
bool live_work(struct live *live);

struct progress live_progress(const struct live *live);

/* Whether a part shows something else than before the last key. */
bool live_has_changed(const struct live *live, uint32_t part);

/* Whether the line was refused at a byte, and which. A text that is too long is refused at the first byte too many. */
bool live_fault(const struct live *live, size_t *place);

#endif
