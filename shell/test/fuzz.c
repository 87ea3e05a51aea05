/*
 * Random bytes for the two things that a stranger can feed the screen with and that are not proved: the recording's
 * file, and the keys. Run under sanitizers.
 *
 *     fuzz SECONDS SEED
 *
 * Each round reads a recording of random bytes, or near one that is good, and then draws the screen after each of some
 * hundred random keys in terminals of random sizes. Beside the sanitizers' own tests, the cursor must stand in the line
 * and on the screen, and the parts that are drawn must be the engine's. The last line says how much was tried.
 */
#define _POSIX_C_SOURCE 200809L

#include "../draw.h"
#include "../grid.h"
#include "../live.h"
#include "../recording.h"

#include <stdlib.h>
#include <string.h>
#include <time.h>

static uint64_t state;

/* A number below a bound. */
static unsigned draw_number(unsigned bound)
{
    state = state * UINT64_C(6364136223846793005) + UINT64_C(1442695040888963407);
    return (unsigned)(state >> 33) % bound;
}

static void require(bool holds, const char *what)
{
    if (!holds) {
        printf("fuzz: %s\n", what);
        exit(1);
    }
}

/* ---- Recordings ---- */

#define FILE_BYTES 16384

/* Bytes of a recording's file: any; those that numbers are made of; or numbers with blanks, some of them damaged. */
static size_t draw_file(char *bytes)
{
    static const char common[] = "0123456789 \t\r\n-#";
    unsigned sort = draw_number(3);
    size_t length = draw_number(draw_number(8) == 0 ? FILE_BYTES : 200) + 1;
    size_t at;
    for (at = 0; at < length; at++) {
        bytes[at] = (char)(sort == 0 ? draw_number(256)
                           : sort == 1 ? (unsigned char)common[draw_number(sizeof common - 1)]
                           : at % 5 == 4 ? ' '
                                         : '0' + draw_number(10));
    }
    if (sort == 2 && draw_number(2) == 0) {
        bytes[draw_number((unsigned)length)] = (char)draw_number(256);
    }
    return length;
}

static bool read_any(struct recording *recording)
{
    static char bytes[FILE_BYTES];
    size_t length = draw_file(bytes);
    FILE *file = fmemopen(bytes, length, "r");
    bool is_good;
    require(file != NULL, "no memory for a file");
    is_good = recording_read(file, "any", recording);
    (void)fclose(file);
    require(recording->length <= FORMULA_RECORDING_READINGS, "too many readings");
    return is_good;
}

/* ---- Keys ---- */

static const char *const pieces[] = {
    "data",      ".skip(",    ".take(",    ".sum()",    ".at(",      ".add(",      ".div(",       ".countWhere(",
    ".sumBy(",   "let x = ",  " in ",      "\\a -> ",   "\\b -> ",   ")",          "(",           "x",
    "a",         "b",         "12",        "-3",        " ",         ".max()",     ".bestSum(",   "2147483648",
    "\033[D",    "\033[C",    "\033[A",    "\033[B",    "\033[H",    "\033[F",     "\033[3~",     "\033[1;5D",
    "\033[1;5C", "\033b",     "\033f",     "\177",      "\r",        "\025",       "\013",        "\027",
    "\033[200~", "\033[201~", "\033[",     "\033",      "\033O",     "\033[99999", "\033[?1;2;3", "\303\251",
    "\360\237",  "#",         "\t",        "\014",      "data.sumBy(\\a -> a.add(1))",
    "\033[200~data\n.sum()\r\n\033[201~",
};

/* Takes the key that a byte ends; one that leaves does not. */
static unsigned take(struct live *live, struct keys *keys, enum key key)
{
    live_key(live, key, keys);
    live->has_left = false;
    return key != KEY_NONE;
}

static unsigned send(struct live *live, struct keys *keys, const char *bytes, size_t length)
{
    unsigned taken = 0;
    size_t at;
    for (at = 0; at < length; at++) {
        taken += take(live, keys, keys_take(keys, (unsigned char)bytes[at]));
    }
    return taken;
}

static unsigned send_any(struct live *live, struct keys *keys)
{
    const char *piece = pieces[draw_number(sizeof pieces / sizeof pieces[0])];
    char bytes[8];
    size_t at;
    if (draw_number(8) > 0) {
        return send(live, keys, piece, strlen(piece));
    }
    for (at = 0; at < sizeof bytes; at++) {
        bytes[at] = (char)draw_number(256);
    }
    return send(live, keys, bytes, draw_number(sizeof bytes));
}

/* What is shown is what the engine says, whatever the line has become since. */
static void check_shown(const struct live *live)
{
    const struct session *session = live->session;
    uint32_t part = session->parts.count > 0 ? draw_number(session->parts.count) : 0;
    const formula_preview_answer *shown = &session->shown[part];
    formula_evaluate_answer told;
    if (session->parts.count == 0 || !shown->finished || live->most_steps[part] > 100000) {
        return;
    }
    told = formula_text_evaluate(session->text, session->length, session->recording->readings,
                                 session->recording->length, part);
    require(told.kind == shown->kind && told.first == shown->first && told.second == shown->second &&
                told.name == shown->name && told.other == shown->other,
            "a part shows something else than it is evaluated to");
}

static void check_screen(const struct live *live, struct grid *grid, struct painter *painter, FILE *terminal)
{
    int columns = (int)draw_number(draw_number(4) == 0 ? 600 : 100) + 1;
    int rows = (int)draw_number(draw_number(4) == 0 ? 200 : 40) + 1;
    draw(live, columns, rows, grid);
    painter->has_colour = draw_number(2) == 0;
    painter->has_symbols = draw_number(2) == 0;
    paint(painter, grid, terminal);
    require(live->line.cursor <= live->line.length && live->line.length <= LINE_BYTES, "the cursor is out of the line");
    require(grid->cursor_row < grid->rows && grid->cursor_column < grid->columns && grid->cursor_column >= 0,
            "the cursor is off the screen");
    require(live->at_cursor == 0 || live->at_cursor < live->session->parts.count, "the part at the cursor is none");
    check_shown(live);
}

/* ---- Rounds ---- */

struct tried {
    unsigned long recordings, good, keys, screens;
};

static void round_of_keys(const struct recording *recording, FILE *terminal, struct tried *tried)
{
    static struct session session;
    static struct live live;
    static struct keys keys;
    static struct grid grid;
    static struct painter painter;
    unsigned count = 50 + draw_number(200);
    require(session_open(&session, recording) == FORMULA_ACCEPTED, "a recording is refused");
    memset(&keys, 0, sizeof keys);
    live_start(&live, &session, "any");
    for (; count > 0; count--) {
        tried->keys += send_any(&live, &keys);
        if (keys_are_midway(&keys) && draw_number(4) == 0) {
            keys_settle(&keys);
        }
        while (live_work(&live) && draw_number(4) > 0) {
        }
        check_screen(&live, &grid, &painter, terminal);
        tried->screens++;
    }
}

int main(int argc, char **argv)
{
    static struct recording recording;
    struct tried tried = {0, 0, 0, 0};
    time_t end = time(NULL) + (argc > 1 ? atoi(argv[1]) : 5);
    FILE *terminal = fopen("/dev/null", "w");
    state = argc > 2 ? strtoull(argv[2], NULL, 10) : 1;
    require(terminal != NULL && freopen("/dev/null", "w", stderr) != NULL, "there is no /dev/null");
    while (time(NULL) < end) {
        bool is_good = read_any(&recording);
        tried.recordings++;
        tried.good += is_good;
        if (is_good || draw_number(16) == 0) {
            round_of_keys(&recording, terminal, &tried);
        }
    }
    (void)fclose(terminal);
    printf("fuzz: %lu recordings, %lu of them good; %lu keys, %lu screens: no fault\n", tried.recordings, tried.good,
           tried.keys, tried.screens);
    return 0;
}
