r"""
The scenarios of screens.py: a file NAME.keys of lines.

    # comment
    each signal TERM HUP            first of all: the scenario is run for each of these, which $signal stands for
    arguments shell/interval.txt    the program's arguments, split as a shell does; none by default
    recording NAME 1 2 3            writes a file of this text; $NAME in later arguments and inputs is its path
    environment NO_COLOR=1 -TERM    sets a variable; with a minus unsets it
    input PATH                      the standard input comes from this file, the rest is the terminal still
    size 80 24                      columns and rows at the start
    start                           starts the program; each of the commands below does, if it is the first of them
    type data.skip(1)               sends the rest of the line, in one write
    press Left Ctrl-Left Leftx3     sends keys, in one write; xN repeats a key. The names are those of driver.KEYS
    bytes 1b 5b 44                  sends bytes
    send data\x1b[D                 sends the rest of the line with the escapes of a paste, in one write
    paste first\nsecond             sends a bracketed paste; \n, \r, \t, \\ and \xHH are escapes, in recordings too
    resize 40 10                    columns and rows
    signal TERM                     sends a signal
    screen                          waits until the alternate screen is the one that follows, up to a line 'end'
      cursor 3 12                     row and column counted from 1, or: cursor hidden
      |text of a row                  trailing blanks are cut, and so are blank rows at the end
      :style letters of that row      where a cell has a style; see LETTERS
    end
    passing 2 left                  the same of a frame that may last as long as an entry is worked out; when it is
                                    stored, it is the first with these words
    seen some words | others        waits for a frame that has all these words
    output                          the same of the main screen, for a program that uses no other
    exit 0                          the program ends with this status, or by a signal, such as SIGSEGV, and leaves the
                                    terminal as it was. Without this line Ctrl-C is sent at the end, and must give 0
    picture README.md               the screen seen last is the first code block of that file

What is written to the terminal and should not be fails the scenario at its next screen, output or exit.
"""
import collections
import os
import re

import driver

# How sets of SGR attributes are stored; '?' for any other.
LETTERS = {frozenset(attributes): letter for attributes, letter in [
    ((), ' '), ((2,), 'd'), ((1,), 'b'), ((7,), 'r'), ((2, 7), 'D'), ((1, 7), 'B'), ((31,), 'R'), ((1, 31), 'f'),
    ((32,), 'G'), ((33,), 'Y'), ((1, 33), 'y'), ((36,), 'C'), ((2, 36), 'c'), ((1, 36), 'i')]}

# Commands that say how the program is started.
BEFORE_START = ('each', 'arguments', 'recording', 'environment', 'input', 'size')

# Commands that a screen follows.
BLOCKS = ('screen', 'passing', 'output')

# Commands that may follow the program's end.
AFTER_END = BLOCKS + ('picture',)

ESCAPES = {b'n': b'\n', b'r': b'\r', b't': b'\t', b'\\': b'\\'}

# A command of a scenario: its line, counted from 0, and for a screen the lines of its block from begin to end.
Step = collections.namedtuple('Step', 'line command rest begin end')


class Failure(Exception):
    """Why a scenario fails."""


def read_text(path):
    """A file's text, in which any byte stays what it is."""
    with open(path, encoding='utf-8', errors='surrogateescape', newline='') as file:
        return file.read()


def write_bytes(path, data):
    """Replaces a file as a whole, so that nobody reads a part of it."""
    partial = f'{path}.{os.getpid()}'
    with open(partial, 'wb') as file:
        file.write(data)
    os.replace(partial, path)


def encoded(text):
    """The bytes that a text of a file had there."""
    return text.encode('utf-8', 'surrogateescape')


def unescaped(text):
    """A text with its escapes put in, as bytes."""
    def value(match):
        code, sign = match.groups()
        if code is None and sign not in ESCAPES:
            raise Failure(f'unknown escape {match[0]!r}')
        return bytes([int(code, 16)]) if code else ESCAPES[sign]
    return re.sub(rb'\\(?:x([0-9a-fA-F]{2})|(.?))', value, encoded(text))


def size(text):
    """Columns and rows."""
    match = re.fullmatch(r' *([1-9][0-9]{0,3}) +([1-9][0-9]{0,3}) *', text)
    if not match:
        raise Failure('columns and rows are needed, from 1 to 9999')
    return int(match[1]), int(match[2])


def key_bytes(name):
    """What the key of a name sends, as often as the name says."""
    match = re.fullmatch(r'(.+)x([0-9]+)', name)
    if name not in driver.KEYS and match:
        return key_bytes(match[1]) * int(match[2])
    if name not in driver.KEYS:
        raise Failure(f'unknown key {name}')
    return driver.KEYS[name]


def row_texts(terminal):
    """The rows of the screen without styles and without blanks at their ends."""
    return [''.join(symbol for symbol, _ in row).rstrip(' ') for row in terminal.cells]


def each_values(path):
    """What names stand for in each run of a scenario."""
    first = next(iter(parsed(read_text(path).split('\n'))), None)
    if first is None or first.command != 'each':
        return [{}]
    name, *values = first.rest.split()
    return [{name: value} for value in values]


def without_blank_end(lines, blank):
    """Lines without those at the end that are blank."""
    end = len(lines)
    while end and lines[end - 1] == blank:
        end -= 1
    return lines[:end]


def screen_lines(terminal):
    """The screen as scenarios store it."""
    lines = [f'cursor {terminal.row + 1} {terminal.column + 1}' if terminal.cursor_visible else 'cursor hidden']
    for text, row in zip(row_texts(terminal), terminal.cells):
        lines.append(f'|{text}')
        styles = ''.join(LETTERS.get(attributes, '?') for _, attributes in row).rstrip(' ')
        lines += [f':{styles}'] if styles else []
    return without_blank_end(lines, '|')


def block_end(lines, begin):
    """The line that ends the block of a screen."""
    for at in range(begin, len(lines)):
        if lines[at].strip() == 'end':
            return at
        if lines[at].strip() and not re.match(' *(cursor |[|:])', lines[at]):
            raise Failure(f'line {at + 1}: no line of a screen')
    raise Failure(f'line {begin}: a screen without end')


def parsed(lines):
    """The steps of a scenario's lines."""
    steps = []
    next_line = 0
    for at, line in enumerate(lines):
        command, _, rest = line.lstrip(' ').partition(' ')
        if at < next_line or not command or command.startswith('#'):
            continue
        begin = end = next_line = at + 1
        if command in BLOCKS:
            end = block_end(lines, begin)
            next_line = end + 1
        steps.append(Step(at, command, rest, begin, end))
    return steps
