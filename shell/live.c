#include "live.h"

#include "cursor.h"
#include "words.h"

#include <string.h>

void live_start(struct live *live, struct session *session, const char *name)
{
    memset(live, 0, sizeof *live);
    live->session = session;
    live->name = name;
}

/* ---- Work ---- */

/* What an entry shows is shown by all parts that have it. */
static void show_entry(struct session *session, uint32_t entry, const formula_preview_answer *shown)
{
    uint32_t part;
    for (part = 0; part < session->parts.count; part++) {
        if (session->places[part] == entry) {
            session->shown[part] = *shown;
        }
    }
}

/* The first entry to work out, by its number, or FORMULA_TABLE_ENTRIES. Those that it depends on have lower ones. */
static uint32_t first_awaited(const struct session *session)
{
    uint32_t first = FORMULA_TABLE_ENTRIES;
    uint32_t part;
    for (part = 0; part < session->parts.count; part++) {
        if (session_awaits(session, part) && session->places[part] < first) {
            first = session->places[part];
        }
    }
    return first;
}

/*
 * Works out entries within so many steps. One that takes more than these has a frame of its own, if `is_alone` says so.
 * Gives whether there is more to work out.
 */
static bool work(struct live *live, uint64_t most, bool is_alone)
{
    struct session *session = live->session;
    uint64_t spent = 0;
    uint32_t entry;
    while ((entry = first_awaited(session)) < FORMULA_TABLE_ENTRIES) {
        formula_preview_answer shown;
        uint64_t steps = PREVIEW_STEPS + live->steps[entry];
        if (spent + steps > most && (spent > 0 || !is_alone)) {
            return true;
        }
        shown = formula_cache_preview(&session->cache, entry, 1);
        live->worked += shown.worked;
        spent += steps;
        show_entry(session, entry, &shown);
    }
    return false;
}

bool live_work(struct live *live)
{
    return work(live, FRAME_STEPS, true);
}

/* Which parts are turned away, and what the others show without any work. */
static void look_over(struct live *live)
{
    struct session *session = live->session;
    uint32_t part;
    formula_cache_steps(&session->cache, live->steps);
    for (part = 0; part < session->parts.count; part++) {
        uint32_t entry = session->places[part];
        live->depths[part] = formula_cache_run_depth(&session->cache, entry);
        live->most_steps[part] = formula_cache_most_steps(&session->cache, live->steps, entry);
        session->is_turned_away[part] = live->depths[part] > MOST_DEPTH || live->most_steps[part] > MOST_STEPS;
    }
    for (part = 0; part < session->parts.count; part++) {
        if (session_awaits(session, part)) {
            formula_preview_answer shown = formula_cache_preview(&session->cache, session->places[part], 0);
            show_entry(session, session->places[part], &shown);
        }
    }
}

/* ---- What a key changes ---- */

/* A formula with what its parts show. */
struct seen {
    char text[FORMULA_TEXT_BYTES];
    size_t length;
    struct parts parts;
    formula_preview_answer shown[FORMULA_TEXT_PARTS];
};

static void see(const struct session *session, struct seen *seen)
{
    memcpy(seen->text, session->text, session->length);
    seen->length = session->length;
    seen->parts = session->parts;
    memcpy(seen->shown, session->shown, sizeof seen->shown);
}

/* The part whose mark stands at a place, or the number of parts. */
static uint32_t part_with_mark(const struct parts *parts, size_t mark)
{
    uint32_t part = 0;
    while (part < parts->count && parts->at[part].mark != mark) {
        part++;
    }
    return part;
}

/*
 * What the parts showed before. A part is the same where its mark is, in what the key left as it was; and so are two,
 * one before and one now, that begin where the change does, if they are no others: a number whose first digit changed.
 */
static void compare(struct live *live, const struct seen *seen)
{
    const struct session *session = live->session;
    const struct parts *parts = &session->parts;
    struct change change = change_of(seen->text, seen->length, session->text, session->length);
    uint32_t before = part_with_mark(&seen->parts, change.before);
    uint32_t begun = part_with_mark(parts, change.before);
    bool is_free = before < seen->parts.count;
    uint32_t part;
    for (part = 0; part < parts->count; part++) {
        size_t mark = parts->at[part].mark;
        uint32_t old = part_with_mark(&seen->parts, change_place(&change, mark));
        if (change_keeps(&change, mark) && old < seen->parts.count) {
            live->before[part] = seen->shown[old];
            is_free = is_free && old != before && part != begun;
        }
    }
    if (is_free && begun < parts->count) {
        live->before[begun] = seen->shown[before];
    }
}

static enum notice opened_notice(uint32_t opened_for)
{
    if (opened_for == 0) {
        return NOTICE_NONE;
    }
    return opened_for == FORMULA_REFUSAL_TABLE_FULL ? NOTICE_TABLE_FULL : NOTICE_CACHE_DAMAGED;
}

/* Finds the part at the cursor, and its text. Of a line that was refused it is the part of the last formula there. */
static void follow_cursor(struct live *live)
{
    struct session *session = live->session;
    struct change change = change_of(session->text, session->length, live->line.text, live->line.length);
    size_t place = change_place(&change, live->line.cursor);
    live->at_cursor = part_at(session->text, session->length, &session->parts, place);
    memset(&live->printed, 0, sizeof live->printed);
    if (session->parts.count > 0) {
        live->printed = formula_cache_print(&session->cache, session->places[live->at_cursor], live->full,
                                            sizeof live->full);
    }
}

static void edit(struct live *live)
{
    static struct seen seen;
    see(live->session, &seen);
    live->edit = session_edit(live->session, live->line.text, live->line.length);
    live->is_taken = live->edit.answer.refusal == FORMULA_ACCEPTED;
    live->worked = 0;
    memset(live->before, 0, sizeof live->before);
    if (live->edit.opened_for != 0) {
        live->notice = opened_notice(live->edit.opened_for);
    }
    if (live->is_taken) {
        look_over(live);
        compare(live, &seen);
    }
    follow_cursor(live);
}

/* ---- Keys ---- */

/* Keeps a formula and begins a new line; of a line that was refused, goes to the byte that it was refused at. */
static void enter(struct live *live)
{
    size_t place;
    if (live->is_taken) {
        line_keep(&live->line);
    } else if (live_fault(live, &place)) {
        live->line.cursor = place;
    }
}

static bool insert(struct line *line, enum key key, const struct keys *keys)
{
    return key == KEY_PASTE ? line_paste(line, keys->paste, keys->paste_length) : line_insert(line, &keys->byte, 1);
}

static void change_line(struct live *live, enum key key, const struct keys *keys)
{
    struct line *line = &live->line;
    switch (key) {
    case KEY_BYTE:
    case KEY_PASTE: live->notice = insert(line, key, keys) ? NOTICE_NONE : NOTICE_LINE_FULL; break;
    case KEY_ENTER: enter(live); break;
    case KEY_LEFT: line_left(line); break;
    case KEY_RIGHT: line_right(line); break;
    case KEY_WORD_LEFT: line_word_left(line); break;
    case KEY_WORD_RIGHT: line_word_right(line); break;
    case KEY_HOME: line->cursor = 0; break;
    case KEY_END: line->cursor = line->length; break;
    case KEY_UP: line_earlier(line); break;
    case KEY_DOWN: line_later(line); break;
    case KEY_BACKSPACE: line_backspace(line); break;
    case KEY_DELETE: line_delete(line); break;
    case KEY_DELETE_WORD: line_delete_word(line); break;
    case KEY_DELETE_TO_START: line_delete_to_start(line); break;
    case KEY_DELETE_TO_END: line_delete_to_end(line); break;
    default: break;
    }
}

void live_key(struct live *live, enum key key, const struct keys *keys)
{
    if (key == KEY_NONE || key == KEY_OTHER || key == KEY_REDRAW || key == KEY_SUSPEND) {
        return;
    }
    if (key == KEY_LEAVE) {
        live->has_left = true;
        return;
    }
    live->notice = NOTICE_NONE;
    change_line(live, key, keys);
    edit(live);
    (void)work(live, KEY_STEPS, false);
}

/* ---- What is shown ---- */

struct progress live_progress(const struct live *live)
{
    const struct session *session = live->session;
    struct progress progress = {0, 0, 0};
    uint32_t part;
    for (part = 0; part < session->parts.count; part++) {
        if (!session_repeats(session, part)) {
            progress.entries++;
            progress.left += session_awaits(session, part);
            progress.away += session->is_turned_away[part];
        }
    }
    return progress;
}

bool live_has_changed(const struct live *live, uint32_t part)
{
    const formula_preview_answer *before = &live->before[part];
    const formula_preview_answer *now = &live->session->shown[part];
    return before->finished && now->finished &&
           (before->kind != now->kind || before->first != now->first || before->second != now->second ||
            before->name != now->name || before->other != now->other);
}

bool live_fault(const struct live *live, size_t *place)
{
    uint32_t refusal = live->edit.answer.refusal;
    bool is_too_long = refusal == FORMULA_REFUSAL_TEXT_TOO_LONG;
    *place = is_too_long ? FORMULA_TEXT_BYTES : live->edit.answer.place;
    return is_too_long || refusal_has_place(refusal);
}
