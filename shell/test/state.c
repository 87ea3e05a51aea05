/*
 * The state of the live screen without a terminal: keys from bytes, the formula line, and which part a byte belongs to.
 * Run under sanitizers. The last line is 'state: N passed, M failed'.
 */
#include "../bytes.h"
#include "../cursor.h"
#include "../keys.h"
#include "../line.h"

#include <stdio.h>
#include <string.h>

static unsigned passed, failed;

static void expect(const char *what, const char *expected, const char *seen)
{
    bool is_same = strcmp(expected, seen) == 0;
    passed += is_same;
    failed += !is_same;
    if (!is_same) {
        printf("%s\n  expected %s\n  seen     %s\n", what, expected, seen);
    }
}

/* A byte as it is shown, but for a tab: that must have become a blank. */
static char column_of(char byte)
{
    return byte == '\t' ? '_' : shown_byte(byte);
}

/* ---- Keys ---- */

/* A key as a letter; the byte of KEY_BYTE stands for itself. */
static const char letters[] = {
    [KEY_NONE] = 0,          [KEY_BYTE] = 0,           [KEY_PASTE] = 0,           [KEY_ENTER] = 'E',
    [KEY_LEFT] = 'L',        [KEY_RIGHT] = 'R',        [KEY_WORD_LEFT] = 'P',     [KEY_WORD_RIGHT] = 'N',
    [KEY_HOME] = 'H',        [KEY_END] = 'T',          [KEY_UP] = 'U',            [KEY_DOWN] = 'D',
    [KEY_BACKSPACE] = 'B',   [KEY_DELETE] = 'X',       [KEY_DELETE_WORD] = 'W',   [KEY_DELETE_TO_START] = 'S',
    [KEY_DELETE_TO_END] = 'K', [KEY_REDRAW] = 'F',     [KEY_SUSPEND] = 'Z',       [KEY_LEAVE] = 'Q',
    [KEY_OTHER] = '-',
};

struct key_case {
    const char *bytes; /* '!' is a pause in which no bytes come */
    const char *keys;  /* letters; a byte in lower case, '?' for one that is not ASCII; a paste in brackets */
};

static const struct key_case key_cases[] = {
    {"a \t\303\251~", "a  ??~"},
    {"\001\002\003\004\005\006\010\012\013\014\015\016\020\025\027\032\177", "HLQQTRBEKFEDUSWZB"},
    {"\007\021\023\034\035\036\037", "-------"},
    {"\033[A\033[B\033[C\033[D\033[F\033[H", "UDRLTH"},
    {"\033OA\033OB\033OC\033OD\033OF\033OH\033OM", "UDRLTH-"},
    {"\033[1~\033[3~\033[4~\033[7~\033[8~\033[2~\033[5~\033[6~", "HXTHT---"},
    /* Ctrl, Alt, both, Shift; and as older terminals send them. */
    {"\033[1;5D\033[1;5C\033[1;3D\033[1;3C\033[1;7D\033[1;2D\033[1;2C\033[1;1C", "PNPNPLRR"},
    {"\033[5D\033[5C\033O5D\033O5C\033Od\033Oc\033[d\033[c", "PNPNPNPN"},
    {"\033\033[D\033[D\033\033[C\033OD", "PLNL"},
    {"\033b\033f\033\177\033\010\033x\033[3;5~\033[1;5A", "PNWW-XU"},
    /* What is no key is taken in whole. */
    {"\033[?1;2c\033[>0;1;2c\033[20 qa\033[[Ab\033[99999999999999999999~c\033[1;2;3Dd", "---a-b-cPd"},
    {"\033[4294967299~a\033O[b", "-a-b"},
    {"\033[\033[D\033O\033[C\033[1\001\033[1;\303b\033O\002", "LRH?bL"},
    {"\033[\003\033\003\033O\004", "QQQ"},
    /* An ESC by itself, and sequences that stop. */
    {"\033!a\033[!a\033[1;5!D\033O!D", "aaDD"},
    {"\033\033!b", "b"},
    /* Pastes: line breaks are the line's; sequences in them are left out; they may pause, and Ctrl-C leaves. */
    {"\033[200~ab\001\tc\r\n\033[201~d", "-[ab??c??]d"},
    {"\033[200~\033[201~a", "--a"},
    {"\033[200~a!b\033[31mc\033[D\033Od\033x!y\033[201~z", "-[abcy]z"},
    {"\033[200~a\033[3~b\033[201Dc\033!\033[2!01~", "-[abc]"},
    {"\033[200~ab\003c", "-Qc"},
    {"\033[200~ab\033\003c\033[200~d\033[\003e", "-Qc-Qe"},
    {"\033[201~a", "-a"},
    {"\033[200~a\033[201~\033[200~b\033[201~", "-[a]-[b]"},
};

static size_t note_key(char *seen, size_t end, const struct keys *keys, enum key key)
{
    size_t at;
    if (key == KEY_BYTE) {
        seen[end++] = column_of(keys->byte);
    } else if (key == KEY_PASTE) {
        seen[end++] = '[';
        for (at = 0; at < keys->paste_length; at++) {
            seen[end++] = keys->paste[at] > ' ' && keys->paste[at] <= '~' ? keys->paste[at] : '?';
        }
        seen[end++] = ']';
    } else if (letters[key] != 0) {
        seen[end++] = letters[key];
    }
    return end;
}

static void check_keys(const struct key_case *one)
{
    static struct keys keys;
    char seen[256];
    size_t end = 0;
    const char *byte;
    memset(&keys, 0, sizeof keys);
    for (byte = one->bytes; *byte != '\0'; byte++) {
        if (*byte != '!') {
            end = note_key(seen, end, &keys, keys_take(&keys, (unsigned char)*byte));
        } else {
            keys_settle(&keys);
        }
    }
    seen[end] = '\0';
    expect(one->bytes + (one->bytes[0] == '\033'), one->keys, seen);
}

/* A paste longer than what is gathered comes in pieces, of which none is lost. */
static void check_long_paste(void)
{
    static struct keys keys;
    char seen[64];
    size_t taken = 0;
    unsigned pieces = 0;
    size_t at;
    memset(&keys, 0, sizeof keys);
    for (at = 0; at < 6; at++) {
        (void)keys_take(&keys, (unsigned char)"\033[200~"[at]);
    }
    for (at = 0; at < 2 * PASTE_BYTES + 10; at++) {
        if (keys_take(&keys, 'x') == KEY_PASTE) {
            pieces++;
            taken += keys.paste_length;
        }
    }
    for (at = 0; at < 6; at++) {
        if (keys_take(&keys, (unsigned char)"\033[201~"[at]) == KEY_PASTE) {
            pieces++;
            taken += keys.paste_length;
        }
    }
    (void)snprintf(seen, sizeof seen, "%u pieces, %lu bytes", pieces, (unsigned long)taken);
    expect("a long paste", "3 pieces, 8202 bytes", seen);
}

/* ---- The line ---- */

struct line_case {
    const char *keys;     /* letters as above; a paste in brackets, '/' CR, '%' LF, '_' a tab in it; else typed */
    const char *expected; /* the line with '|' at the cursor */
};

static const struct line_case line_cases[] = {
    {"abc", "abc|"},
    {"abcLLx", "ax|bc"},
    {"LRBXWSKa", "a|"},
    {"abcHxTy", "xabcy|"},
    {"abcLB", "a|c"},
    {"abcHX", "|bc"},
    {"abcX", "abc|"},
    {"abcHB", "|abc"},
    {"abcLS", "|c"},
    {"abcLLK", "a|"},
    {"data.skip(40)P", "data.skip(|40)"},
    {"data.skip(40)PP", "data.|skip(40)"},
    {"data.skip(40)PPP", "|data.skip(40)"},
    {"data.skip(40)PPPP", "|data.skip(40)"},
    {"data.skip(40)HN", "data|.skip(40)"},
    {"data.skip(40)HNN", "data.skip|(40)"},
    {"data.skip(40)HNNN", "data.skip(40|)"},
    {"data.skip(40)HNNNN", "data.skip(40)|"},
    {"data.skip(40)W", "data.skip(|"},
    {"data.skip(40)LLW", "data.skip(|0)"},
    /* A character of UTF-8 goes with one key, up to four bytes of it. */
    {"a\303\251bLLX", "a|b"},
    {"a\303\251B", "a|"},
    {"a\303\251LL\303\251", "??|a??"},
    {"\360\237\230\200bHR", "????|b"},
    {"\360\237\230\200B", "|"},
    {"\200\200\200\200\200L", "?|????"},
    {"\200\200\200\200\200HR", "????|?"},
    {"\303L", "|?"},
    /* Pastes. */
    {"[a/%b%c/d]", "a b c d|"},
    {"[/%a%%b/%%]", "a  b|"},
    {"x[a b]L", "xa |b"},
    {"[%]a", "a|"},
    {"[a_b]", "a b|"},
    /* Kept lines: the newest first, the same one only once in a row, the draft last. */
    {"UaDb", "ab|"},
    {"oneEtwoEU", "two|"},
    {"oneEtwoEUU", "one|"},
    {"oneEtwoEUUU", "one|"},
    {"oneEtwoEUUD", "two|"},
    {"oneEtwoEdraftUDx", "draftx|"},
    {"oneEtwoEdraftUUDDD", "draft|"},
    {"oneEoneEtwoEUUUU", "one|"},
    {"oneEoneEtwoEUUUD", "two|"},
    {"oneaEoneEU", "one|"},
    {"oneEoneEtwoEUUD", "two|"},
    {"oneEoneEUDx", "x|"},
    {"oneEonaEUU", "one|"},
    {"oneEoneaEUU", "one|"},
    {"oneEtwoEUxU", "two|"},
    {"oneEtwoEUUxUD", "onex|"},
    {"oneEtwoEULXUD", "tw|"},
    {"oneEtwoEUUBUD", "on|"},
};

static void press(struct line *line, char key)
{
    switch (key) {
    case 'E': line_keep(line); break;
    case 'L': line_left(line); break;
    case 'R': line_right(line); break;
    case 'P': line_word_left(line); break;
    case 'N': line_word_right(line); break;
    case 'H': line->cursor = 0; break;
    case 'T': line->cursor = line->length; break;
    case 'U': line_earlier(line); break;
    case 'D': line_later(line); break;
    case 'B': line_backspace(line); break;
    case 'X': line_delete(line); break;
    case 'W': line_delete_word(line); break;
    case 'S': line_delete_to_start(line); break;
    case 'K': line_delete_to_end(line); break;
    default: (void)line_insert(line, &key, 1); break;
    }
}

/* Pastes what stands in brackets, and gives the place of the last one. */
static const char *paste(struct line *line, const char *from)
{
    char bytes[64];
    size_t count = 0;
    for (from++; *from != ']'; from++) {
        bytes[count++] = *from == '/' ? '\r' : *from == '%' ? '\n' : *from == '_' ? '\t' : *from;
    }
    (void)line_paste(line, bytes, count);
    return from;
}

static void show_line(const struct line *line, char *seen)
{
    size_t end = 0;
    size_t at;
    for (at = 0; at <= line->length && at < 64; at++) {
        if (at == line->cursor) {
            seen[end++] = '|';
        }
        if (at < line->length) {
            seen[end++] = column_of(line->text[at]);
        }
    }
    seen[end] = '\0';
}

static void check_line(const struct line_case *one)
{
    static struct line line;
    char seen[80];
    const char *key;
    memset(&line, 0, sizeof line);
    for (key = one->keys; *key != '\0'; key++) {
        if (*key == '[') {
            key = paste(&line, key);
        } else {
            press(&line, *key);
        }
    }
    show_line(&line, seen);
    expect(one->keys, one->expected, seen);
}

/* Of more lines than are kept the oldest are dropped: after 66, the 64th one back is the third. */
static void check_kept(void)
{
    static struct line line;
    char text[8];
    char seen[80];
    unsigned at;
    memset(&line, 0, sizeof line);
    for (at = 1; at <= KEPT_LINES + 2; at++) {
        int length = snprintf(text, sizeof text, "%u", at);
        (void)line_insert(&line, text, (size_t)length);
        line_keep(&line);
    }
    line_earlier(&line);
    show_line(&line, seen);
    expect("the last kept", "66|", seen);
    for (at = 0; at < KEPT_LINES + 2; at++) {
        line_earlier(&line);
    }
    show_line(&line, seen);
    expect("the first kept", "3|", seen);
    for (at = 0; at < 7; at++) {
        line_later(&line);
    }
    show_line(&line, seen);
    expect("the first kept of two digits", "10|", seen);
}

static void check_room(void)
{
    static struct line line;
    static char bytes[LINE_BYTES + 1];
    char seen[64];
    bool fits[3];
    memset(&line, 0, sizeof line);
    memset(bytes, 'x', sizeof bytes);
    fits[0] = line_insert(&line, bytes, LINE_BYTES + 1);
    fits[1] = line_insert(&line, bytes, LINE_BYTES);
    fits[2] = line_paste(&line, bytes, 1);
    (void)snprintf(seen, sizeof seen, "%d %d %d, %lu bytes", fits[0], fits[1], fits[2], (unsigned long)line.length);
    expect("room in the line", "0 1 0, 4096 bytes", seen);
}

/* ---- Parts ---- */

struct part_case {
    const char *text;
    const char *owners; /* below each byte its part, in base 36; what is behind the end is the last */
};

static const struct part_case part_cases[] = {
    {"data.skip(1)", "0000111111211"},
    {"  data .skip ( 1 ) ", "00000001111111122111"},
    {"let x = 2 in data.take(x)", "00000000110002222333333433"},
    {"let a = let b = 1 in b.add(2) in a", "00000000111111112211134444454400066"},
    {"\\a -> \\b -> a.add(b)", "000000111111233333433"},
    {"(data).sum()", "0000001111111"},
    {"(1.add(2)).sub(3)", "101111121133333433"},
    {"(let x = 1 in x.add(2)).sub(x)", "0000000001100023333343055555655"},
    {"((\\a -> a))", "000000001000"},
    {"data.sumBy(\\a -> (a.add(1)))", "00001111111222222434444454411"},
    {"(\\a -> a.add(1))", "00000001222223200"},
    {"let x = abc.add(1) in (abc).add(x)", "00000000111222223220004444455555655"},
    {"1.add(((2)))", "0111112222211"},
    {"((1).add((2.sub(3)))).eq(4)", "1000111113233333433115555655"},
};

static void check_parts(const struct part_case *one)
{
    static struct parts parts;
    char seen[80];
    size_t length = strlen(one->text);
    size_t at;
    parts_find(one->text, length, &parts);
    for (at = 0; at <= length; at++) {
        seen[at] = "0123456789abcdefghijklmnopqrstuvwxyz"[part_at(one->text, length, &parts, at)];
    }
    seen[at] = '\0';
    expect(one->text, one->owners, seen);
}

struct change_case {
    const char *old, *new;
    const char *places; /* below each byte of the new text and its end: where it is in the old one, '.' if it is new */
};

static const struct change_case change_cases[] = {
    {"abc", "abc", "012."},
    {"", "ab", "..."},
    {"abc", "", "."},
    {"abc", "abxc", "01.2."},
    {"abxc", "abc", "013."},
    {"aaa", "aaaa", "012.."},
    {"aaaa", "aaa", "012."},
    {"abcd", "axyd", "0..3."},
    {"xabc", "abc", "123."},
};

static void check_change(const struct change_case *one)
{
    struct change change = change_of(one->old, strlen(one->old), one->new, strlen(one->new));
    char seen[32];
    size_t at;
    for (at = 0; at <= strlen(one->new); at++) {
        bool is_old = change_keeps(&change, at) && at < strlen(one->new);
        seen[at] = is_old ? (char)('0' + change_place(&change, at)) : '.';
    }
    seen[at] = '\0';
    expect(one->new, one->places, seen);
}

#define EACH(check, cases) \
    for (at = 0; at < sizeof cases / sizeof cases[0]; at++) { \
        check(&cases[at]); \
    }

int main(void)
{
    size_t at;
    EACH(check_keys, key_cases)
    check_long_paste();
    EACH(check_line, line_cases)
    check_kept();
    check_room();
    EACH(check_parts, part_cases)
    EACH(check_change, change_cases)
    printf("state: %u passed, %u failed\n", passed, failed);
    return failed > 0;
}
