/*
 * The watch's formula screen in a terminal: loads a recording, takes formulas over it, and shows beside each part of a
 * formula what it comes to. Of the engine it uses the header alone. The help says which arguments and exit statuses
 * there are.
 */
#define _POSIX_C_SOURCE 200809L

#include "plain.h"
#include "screen.h"
#include "shown.h"
#include "words.h"

#include <inttypes.h>
#include <stdio.h>
#include <string.h>
#include <unistd.h>

/* The recording where none is given. */
#define SHIPPED "shell/interval.txt"

static const char help[] =
    "Usage: formula [--plain] [--plain-check] [--help] [--] [RECORDING]\n"
    "\n"
    "The watch's formula screen in a terminal: takes formulas over a recording, and\n"
    "shows beside each part of a formula what it comes to.\n"
    "\n"
    "  RECORDING      a file, or - for the standard input: formulas then come from\n"
    "                 the terminal; without one " SHIPPED "\n"
    "  --plain        reads formulas line by line, in a terminal too\n"
    "  --plain-check  as --plain; each part that is drawn finished is also evaluated\n"
    "                 without the cache, and its row says where that gives something\n"
    "                 else\n"
    "  --help         prints this and ends\n"
    "  --             a path that follows may begin with -\n"
    "\n"
    "Keys of the live screen, which there is if input and output are a terminal:\n"
    "  Left, Right, Home, End          go through the formula\n"
    "  Ctrl-Left, Ctrl-Right           go by words, as Alt-B and Alt-F do\n"
    "  Backspace, Delete               delete a byte\n"
    "  Ctrl-U, Ctrl-K, Ctrl-W          delete to the start, to the end, a word\n"
    "  Up, Down                        earlier formulas, and back\n"
    "  Enter                           keeps the formula and begins a new line;\n"
    "                                  if it is refused, goes to the byte at fault\n"
    "  Ctrl-L                          draws the screen again\n"
    "  Ctrl-Z                          suspends\n"
    "  Ctrl-C, Ctrl-D                  leave\n"
    "  a paste                         each line break in it is a blank\n"
    "\n"
    "A formula is a number, data, which is the recording, a name, a member of one of\n"
    "them, as in data.skip(40).max(), a let, as in let x = 2 in data.take(x), or a\n"
    "function, as in \\b -> b.gt(150). The members are\n"
    "  " NUMBER_MEMBERS ", of a number\n"
    "  " WINDOW_MEMBERS ", of a window\n"
    "  " RUN_MEMBERS ", of a window, with a function\n"
    "\n"
    "Line by line each line is a formula, or ? and the number of a part: that shows\n"
    "the part of the last formula that was taken in full, as a text of its own. Blank\n"
    "lines, and lines that begin with #, are passed over.\n"
    "\n"
    "A recording is a text of at most 1,024 whole numbers of 32 bits, parted by\n"
    "blanks; # begins a comment up to the end of its line.\n"
    "\n"
    "Environment:\n"
    "  NO_COLOR                if set and not empty, the live screen has no colours\n"
    "  TERM                    if dumb or unset, as with --plain\n"
    "  LC_ALL, LC_CTYPE, LANG  a locale without UTF-8: the live screen is in ASCII\n"
    "\n"
    "Exit status:\n"
    "  0  the input has ended, or the live screen was left\n"
    "  1  the recording or the terminal can't be used, or the output can't be written\n"
    "  2  the arguments are none of those above\n"
    "  3  a part was evaluated to something else, with --plain-check\n";

struct arguments {
    const char *path; /* null where none is given */
    bool is_plain, is_checked, asks_for_help;
};

/* Says why an argument can't be used. */
static bool decline(const char *argument, const char *why)
{
    fprintf(stderr, "formula: '");
    put_shown(stderr, argument, strlen(argument));
    fprintf(stderr, "' %s; see formula --help\n", why);
    return false;
}

static bool take_option(const char *option, struct arguments *arguments)
{
    bool is_check = strcmp(option, "--plain-check") == 0;
    if (is_check || strcmp(option, "--plain") == 0) {
        arguments->is_plain = true;
        arguments->is_checked |= is_check;
    } else if (strcmp(option, "--help") == 0) {
        arguments->asks_for_help = true;
    } else {
        return decline(option, "is no option");
    }
    return true;
}

static bool take_path(const char *path, struct arguments *arguments)
{
    if (arguments->path != NULL) {
        return decline(path, "is a second recording");
    }
    arguments->path = path;
    return true;
}

/* Reads the arguments. Says which can't be used. */
static bool read_arguments(int argc, char **argv, struct arguments *arguments)
{
    bool is_good = true;
    bool has_options = true;
    int at;
    for (at = 1; at < argc && is_good; at++) {
        const char *argument = argv[at];
        bool is_option = has_options && argument[0] == '-' && argument[1] != '\0';
        if (is_option && strcmp(argument, "--") == 0) {
            has_options = false;
        } else {
            is_good = is_option ? take_option(argument, arguments) : take_path(argument, arguments);
        }
    }
    return is_good;
}

/* Opens the recording of a path. Says what is wrong. */
static bool open_recording(const char *path, struct session *session)
{
    static struct recording recording;
    uint32_t refusal;
    if (!recording_load(path, &recording)) {
        return false;
    }
    refusal = session_open(session, &recording);
    if (refusal != FORMULA_ACCEPTED) {
        fprintf(stderr, "formula: ");
        put_shown(stderr, path, strlen(path));
        fprintf(stderr, ": refused (%" PRIu32 "): %s\n", refusal, refusal_words(refusal));
    }
    return refusal == FORMULA_ACCEPTED;
}

/* Where formulas come from; null if that can't be had, which is said. */
static FILE *open_input(const char *path)
{
    FILE *input = strcmp(path, "-") == 0 ? fopen("/dev/tty", "r") : stdin;
    if (input == NULL) {
        fprintf(stderr, "formula: -: the recording takes all of the standard input, and there is no terminal for "
                        "formulas\n");
    }
    return input;
}

/* The exit status once all is printed, if so many parts were evaluated to something else. */
static int finish(unsigned long differing)
{
    if (fflush(stdout) != 0 || ferror(stdout)) {
        fprintf(stderr, "formula: the output can't be written\n");
        return 1;
    }
    if (differing > 0) {
        fprintf(stderr, "formula: parts that differ when evaluated without the cache: %lu\n", differing);
        return 3;
    }
    return 0;
}

int main(int argc, char **argv)
{
    static struct session session;
    struct arguments arguments = {NULL, false, false, false};
    const char *path;
    FILE *input;
    if (!read_arguments(argc, argv, &arguments)) {
        return 2;
    }
    if (arguments.asks_for_help) {
        printf("%s", help);
        return finish(0);
    }
    path = arguments.path != NULL ? arguments.path : SHIPPED;
    if (!open_recording(path, &session)) {
        return 1;
    }
    input = open_input(path);
    if (input == NULL) {
        return 1;
    }
    if (!arguments.is_plain && screen_is_possible(fileno(input), STDOUT_FILENO)) {
        return screen_run(&session, path, fileno(input), STDOUT_FILENO);
    }
    put_shown(stdout, path, strlen(path));
    printf(": %lu readings\n", (unsigned long)session.recording->length);
    return finish(plain_run(&session, input, isatty(fileno(input)) == 1, arguments.is_checked));
}
