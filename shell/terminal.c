#define _XOPEN_SOURCE 700

#include "terminal.h"

#include <errno.h>
#include <fcntl.h>
#include <poll.h>
#include <signal.h>
#include <stdlib.h>
#include <string.h>
#include <sys/ioctl.h>
#include <termios.h>
#include <unistd.h>

/* The alternate screen, and pastes between marks. */
#define ENTER "\033[?1049h"
#define PASTE "\033[?2004h"
#define LEAVE "\033[0m\033[?2004l\033[?25h\033[?1049l"

/* Room for the handler of a stack overflow, which has no stack of its own left. */
#define HANDLER_STACK 65536

static struct {
    int input, output;
    int signals[2]; /* a pipe from the handlers to the loop */
    bool has_handlers;
    struct termios found;
} terminal;

/* Whether the terminal has to be left as it was found; handlers read it. */
static volatile sig_atomic_t is_taken;

static const int ending[] = {
    SIGHUP, SIGINT,  SIGQUIT, SIGTERM, SIGILL,  SIGTRAP, SIGABRT, SIGFPE,  SIGBUS,    SIGSEGV,
    SIGSYS, SIGUSR1, SIGUSR2, SIGPIPE, SIGALRM, SIGPOLL, SIGPROF, SIGXCPU, SIGXFSZ, SIGVTALRM,
};

static bool send(const char *sequence)
{
    return write(terminal.output, sequence, strlen(sequence)) == (ssize_t)strlen(sequence);
}

/* Handlers call this too: it uses nothing but calls that they may make. */
void terminal_leave(void)
{
    int number = errno;
    if (is_taken) {
        (void)send(LEAVE);
        (void)tcsetattr(terminal.input, TCSAFLUSH, &terminal.found);
        is_taken = 0;
    }
    errno = number;
}

/* The program is ended by a signal: as without a handler, but for the terminal. No signal ends the first process. */
static void end(int signal)
{
    terminal_leave();
    (void)raise(signal);
    _exit(128 + signal);
}

/* A signal for the loop, as one byte. A full pipe has enough of them. */
static void note(int signal)
{
    int number = errno;
    char byte = (char)(signal == SIGWINCH ? WAKE_RESIZE : signal == SIGCONT ? WAKE_CONTINUE : WAKE_SUSPEND);
    if (write(terminal.signals[1], &byte, 1) < 0) {
        /* It is full. */
    }
    errno = number;
}

static bool is_ignored(int signal)
{
    struct sigaction action;
    return sigaction(signal, NULL, &action) == 0 && action.sa_handler == SIG_IGN;
}

static void handle(int signal, void (*handler)(int), int flags)
{
    struct sigaction action;
    memset(&action, 0, sizeof action);
    action.sa_handler = handler;
    action.sa_flags = flags;
    (void)sigemptyset(&action.sa_mask);
    (void)sigaction(signal, &action, NULL);
}

static bool set_handlers(void)
{
    static unsigned char stack[HANDLER_STACK];
    stack_t own;
    size_t at;
    memset(&own, 0, sizeof own);
    own.ss_sp = stack;
    own.ss_size = sizeof stack;
    if (pipe(terminal.signals) != 0 || fcntl(terminal.signals[0], F_SETFL, O_NONBLOCK) != 0 ||
        fcntl(terminal.signals[1], F_SETFL, O_NONBLOCK) != 0 || sigaltstack(&own, NULL) != 0) {
        return false;
    }
    for (at = 0; at < sizeof ending / sizeof ending[0]; at++) {
        if (!is_ignored(ending[at])) {
            handle(ending[at], end, (int)SA_RESETHAND | SA_NODEFER | SA_ONSTACK);
        }
    }
    handle(SIGWINCH, note, SA_RESTART);
    handle(SIGCONT, note, SA_RESTART);
    handle(SIGTSTP, note, SA_RESTART);
    (void)atexit(terminal_leave);
    return true;
}

static bool set_raw(void)
{
    struct termios raw = terminal.found;
    raw.c_iflag &= ~(tcflag_t)(IGNBRK | BRKINT | PARMRK | ISTRIP | INLCR | IGNCR | ICRNL | IXON);
    raw.c_oflag &= ~(tcflag_t)OPOST;
    raw.c_lflag &= ~(tcflag_t)(ECHO | ECHONL | ICANON | ISIG | IEXTEN);
    raw.c_cflag &= ~(tcflag_t)(CSIZE | PARENB);
    raw.c_cflag |= CS8;
    raw.c_cc[VMIN] = 1;
    raw.c_cc[VTIME] = 0;
    is_taken = 1;
    return tcsetattr(terminal.input, TCSADRAIN, &raw) == 0;
}

static bool take_over(void)
{
    return set_raw() && send(ENTER PASTE);
}

bool terminal_enter(int input, int output)
{
    terminal.input = input;
    terminal.output = output;
    if (tcgetattr(input, &terminal.found) != 0) {
        return false;
    }
    if (!terminal.has_handlers) {
        terminal.has_handlers = set_handlers();
    }
    return terminal.has_handlers && take_over();
}

bool terminal_suspend(void)
{
    terminal_leave();
    handle(SIGTSTP, SIG_DFL, 0);
    (void)kill(0, SIGTSTP); /* the programs that wait for this one, too: so the shell notices */
    handle(SIGTSTP, note, SA_RESTART);
    return take_over();
}

/* The screen is still the program's own, but others may have set modes. */
bool terminal_resume(void)
{
    return set_raw() && send(PASTE);
}

void terminal_size(int *columns, int *rows)
{
    struct winsize size;
    bool is_known = ioctl(terminal.output, TIOCGWINSZ, &size) == 0 && size.ws_col > 0 && size.ws_row > 0;
    *columns = is_known ? size.ws_col : 80;
    *rows = is_known ? size.ws_row : 24;
}

/* The next stop or end of a stop that was noted; before it, and if there is none, several resizes count as one. */
static enum wake noted(void)
{
    char byte;
    enum wake wake = WAKE_TIME;
    while (read(terminal.signals[0], &byte, 1) == 1) {
        if (byte != (char)WAKE_RESIZE) {
            return (enum wake)byte;
        }
        wake = WAKE_RESIZE;
    }
    return wake;
}

enum wake terminal_wait(int milliseconds)
{
    struct pollfd ready[2];
    int count;
    memset(ready, 0, sizeof ready);
    ready[0].fd = terminal.signals[0];
    ready[0].events = POLLIN;
    ready[1].fd = terminal.input;
    ready[1].events = POLLIN;
    do {
        count = poll(ready, 2, milliseconds);
    } while (count < 0 && errno == EINTR);
    if (count <= 0) {
        return count < 0 ? WAKE_HANGUP : WAKE_TIME;
    }
    if (ready[0].revents != 0) {
        return noted();
    }
    return (ready[1].revents & POLLIN) != 0 ? WAKE_INPUT : WAKE_HANGUP;
}

size_t terminal_read(unsigned char *bytes, size_t room)
{
    ssize_t count;
    do {
        count = read(terminal.input, bytes, room);
    } while (count < 0 && errno == EINTR);
    return count > 0 ? (size_t)count : 0;
}
