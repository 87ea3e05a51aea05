#define _POSIX_C_SOURCE 200809L

#include "screen.h"

#include "draw.h"
#include "terminal.h"

#include <stdlib.h>
#include <string.h>
#include <time.h>
#include <unistd.h>

/* Milliseconds after which a key that has begun is given up: over a slow line its bytes come apart. */
#define KEY_WAIT 500

/* Bytes that are read before a frame is drawn, and that are written at a time: a frame is rarely larger. */
#define READ_BYTES 64
#define WRITE_BYTES 65536

/* The screen while it is shown. */
struct screen {
    struct live live;
    struct keys keys;
    struct grid grid;
    struct painter painter;
    FILE *terminal;
    bool has_work;   /* something is left to work out */
    int64_t read_at; /* when bytes were read last, in milliseconds */
    bool is_lost;    /* the terminal can't be used any more */
};

static int64_t milliseconds(void)
{
    struct timespec time;
    (void)clock_gettime(CLOCK_MONOTONIC, &time);
    return (int64_t)time.tv_sec * 1000 + time.tv_nsec / 1000000;
}

/* The first of these variables of the environment that is set and not empty, or the empty text. */
static const char *first_set(const char *const names[], size_t count)
{
    size_t at;
    for (at = 0; at < count; at++) {
        const char *value = getenv(names[at]);
        if (value != NULL && value[0] != '\0') {
            return value;
        }
    }
    return "";
}

static bool has_symbols(void)
{
    static const char *const names[] = {"LC_ALL", "LC_CTYPE", "LANG"};
    const char *locale = first_set(names, sizeof names / sizeof names[0]);
    return strstr(locale, "UTF-8") != NULL || strstr(locale, "utf-8") != NULL || strstr(locale, "UTF8") != NULL ||
           strstr(locale, "utf8") != NULL;
}

bool screen_is_possible(int input, int output)
{
    static const char *const names[] = {"TERM"};
    const char *name = first_set(names, 1);
    return isatty(input) == 1 && isatty(output) == 1 && name[0] != '\0' && strcmp(name, "dumb") != 0;
}

static void show(struct screen *screen)
{
    int columns, rows;
    terminal_size(&columns, &rows);
    draw(&screen->live, columns, rows, &screen->grid);
    paint(&screen->painter, &screen->grid, screen->terminal);
    screen->is_lost = screen->is_lost || fflush(screen->terminal) != 0;
}

static void take_key(struct screen *screen, enum key key)
{
    if (key == KEY_REDRAW) {
        screen->painter.is_painted = false;
    } else if (key == KEY_SUSPEND) {
        screen->painter.is_painted = false;
        screen->is_lost = !terminal_suspend();
    } else {
        live_key(&screen->live, key, &screen->keys);
    }
}

/* Takes the keys that are there, up to one that leaves. */
static void take_input(struct screen *screen)
{
    unsigned char bytes[READ_BYTES];
    size_t count = terminal_read(bytes, sizeof bytes);
    size_t at;
    screen->is_lost = count == 0;
    screen->read_at = milliseconds();
    for (at = 0; at < count && !screen->live.has_left; at++) {
        take_key(screen, keys_take(&screen->keys, bytes[at]));
    }
    screen->has_work = live_progress(&screen->live).left > 0;
}

/* Nothing came: a key that has begun is given up in time, and a frame of work is done. */
static void take_pause(struct screen *screen)
{
    if (!screen->has_work || milliseconds() - screen->read_at >= KEY_WAIT) {
        keys_settle(&screen->keys);
    }
    if (screen->has_work) {
        screen->has_work = live_work(&screen->live);
    }
}

static void take_wake(struct screen *screen, enum wake wake)
{
    switch (wake) {
    case WAKE_INPUT: take_input(screen); break;
    case WAKE_TIME: take_pause(screen); break;
    case WAKE_RESIZE: screen->painter.is_painted = false; break;
    case WAKE_SUSPEND: take_key(screen, KEY_SUSPEND); break;
    case WAKE_CONTINUE:
        screen->painter.is_painted = false;
        screen->is_lost = !terminal_resume();
        break;
    default: screen->is_lost = true; break;
    }
}

/* Between keys there is work, a frame at a time, as long as some is left; then nothing is done. */
static void loop(struct screen *screen)
{
    show(screen);
    while (!screen->live.has_left && !screen->is_lost) {
        take_wake(screen, terminal_wait(screen->has_work ? 0 : keys_are_midway(&screen->keys) ? KEY_WAIT : -1));
        show(screen);
    }
}

/* A stream of its own, so that a frame is written at once. */
static FILE *open_terminal(int output)
{
    static char buffer[WRITE_BYTES];
    FILE *terminal = fdopen(dup(output), "w");
    if (terminal != NULL) {
        (void)setvbuf(terminal, buffer, _IOFBF, sizeof buffer);
    }
    return terminal;
}

int screen_run(struct session *session, const char *name, int input, int output)
{
    static struct screen screen;
    screen.painter.has_colour = getenv("NO_COLOR") == NULL || getenv("NO_COLOR")[0] == '\0';
    screen.painter.has_symbols = has_symbols();
    screen.terminal = open_terminal(output);
    live_start(&screen.live, session, name);
    if (screen.terminal == NULL || !terminal_enter(input, output)) {
        terminal_leave();
        fprintf(stderr, "formula: the terminal can't be used\n");
        return 1;
    }
    loop(&screen);
    terminal_leave();
    (void)fclose(screen.terminal);
    if (screen.is_lost) {
        fprintf(stderr, "formula: the terminal is gone\n");
        return 1;
    }
    return 0;
}
