"""A terminal that knows the sequences which the formula screen may write. All else that is written is a fault."""
import collections
import functools
import re
import unicodedata

# What a fault is about. A place depends on the size of the screen, so that a resize can bring such a fault about;
# the other kinds are wrong at any size.
PLACE = 'place'
SEQUENCE = 'sequence'
CONTROL = 'control'
ENCODING = 'encoding'

Fault = collections.namedtuple('Fault', 'kind text')

# Faults of a kind that are kept: later ones are mostly consequences of the first.
MOST_FAULTS = 5

# An unfinished sequence that is longer will be none that is known.
MOST_UNFINISHED = 32

PLAIN = frozenset()
BLANK = (' ', PLAIN)
COLOURS = frozenset(range(30, 38))

_TEXT = re.compile(rb'[\x20-\x7e\x80-\xff]+')
_ESCAPE = re.compile(rb'\x1b(?:\[([0-?]*)([ -/]*[@-~])?|[^\[\x1b])?', re.DOTALL)
_MOVE = re.compile(rb'([0-9]{1,5});([0-9]{1,5})')


@functools.lru_cache(maxsize=None)
def _is_single(symbol):
    """Whether a character takes one column of a terminal."""
    is_narrow = unicodedata.east_asian_width(symbol) not in 'WF'
    return is_narrow and unicodedata.category(symbol) not in ('Cc', 'Cf', 'Cn', 'Cs', 'Mn', 'Me', 'Zl', 'Zp')


class Terminal:
    """
    A main and an alternate screen of cells, each a character and its set of SGR attributes. Rows and columns count
    from 0. `faults` are those since it was last emptied.
    """

    def __init__(self, columns, rows):
        self.columns = columns
        self.rows = rows
        self.row = 0
        self.column = 0
        self.attributes = PLAIN
        self.cursor_visible = True
        self.alternate = False
        self.paste = False
        self.faults = []
        self._screens = {False: self._blank_rows(rows), True: self._blank_rows(rows)}
        self._wrap_pending = False
        self._saved_cursor = (0, 0)
        self._unfinished = b''
        self._fixed = {
            b'?1049h': self._enter, b'?1049l': self._leave,
            b'?2004h': lambda: self._set_paste(True), b'?2004l': lambda: self._set_paste(False),
            b'?25h': lambda: self._set_cursor_visible(True), b'?25l': lambda: self._set_cursor_visible(False),
            b'K': self._erase_right, b'J': self._erase_below, b'2J': self._erase_all,
            b'H': lambda: self._set_place(0, 0),
        }

    @property
    def cells(self):
        """The rows of the screen that is shown, each a list of cells."""
        return self._screens[self.alternate]

    def feed(self, data):
        """Takes bytes that the program wrote; they may end anywhere."""
        data = self._unfinished + data
        self._unfinished = b''
        at = 0
        while at < len(data):
            at = self._take(data, at)

    def finish(self):
        """Takes the end of the output, which must not stand within a character or a sequence."""
        if self._unfinished:
            self._fault(SEQUENCE, f'the output ends within {self._unfinished!r}')
            self._unfinished = b''

    def resize(self, columns, rows):
        """Gives both screens another size. What fits stays where it was, counted from the upper left corner."""
        self.columns = columns
        self.rows = rows
        for screen in self._screens.values():
            kept = (screen + self._blank_rows(rows))[:rows]
            screen[:] = [(row + [BLANK] * columns)[:columns] for row in kept]
        self._set_place(min(self.row, rows - 1), min(self.column, columns - 1))

    def _blank_rows(self, count):
        return [[BLANK] * self.columns for _ in range(count)]

    def _fault(self, kind, text):
        if sum(fault.kind == kind for fault in self.faults) < MOST_FAULTS:
            self.faults.append(Fault(kind, f'{text} (at row {self.row + 1}, column {self.column + 1})'))

    def _take(self, data, at):
        """Takes the text, the sequence or the control byte at a place of the bytes; gives the place behind it."""
        if data[at] == 0x1b:
            return self._take_sequence(data, at)
        text = _TEXT.match(data, at)
        if text:
            return self._take_text(data, text)
        self._control(data[at:at + 1])
        return at + 1

    def _take_text(self, data, match):
        run = match.group()
        try:
            self._put(run.decode('utf-8'))
        except UnicodeDecodeError as error:
            self._put(run[:error.start].decode('utf-8'))
            begin = match.start() + error.start
            if match.end() == len(data) and error.reason == 'unexpected end of data':
                self._unfinished = data[begin:]
                return len(data)
            end = match.start() + error.end
            self._fault(ENCODING, f'no UTF-8: {data[begin:end]!r}')
            self._put('\N{REPLACEMENT CHARACTER}')
            return end
        return match.end()

    def _take_sequence(self, data, at):
        match = _ESCAPE.match(data, at)
        parameters, final = match.groups()
        is_open = match.group() == b'\x1b' or (parameters is not None and final is None)
        if is_open and match.end() == len(data) and match.end() - at <= MOST_UNFINISHED:
            self._unfinished = match.group()
        elif final is None or not self._run(parameters, final):
            self._fault(SEQUENCE, f'unknown sequence {match.group()!r}')
        return match.end()

    def _run(self, parameters, final):
        """Does what a sequence asks for; gives whether it is a known one."""
        fixed = self._fixed.get(parameters + final)
        move = _MOVE.fullmatch(parameters) if final == b'H' else None
        if fixed:
            fixed()
        elif move:
            self._move(int(move[1]), int(move[2]))
        else:
            return final == b'm' and self._set_attributes(parameters.split(b';'))
        return True

    def _set_attributes(self, words):
        if not all(re.fullmatch(rb'[0127]|3[0-7]', word) for word in words):
            return False
        for number in map(int, words):
            kept = self.attributes - COLOURS if number in COLOURS else self.attributes
            self.attributes = kept | {number} if number else PLAIN
        return True

    def _move(self, row, column):
        if not (1 <= row <= self.rows and 1 <= column <= self.columns):
            self._fault(PLACE, f'moves to row {row}, column {column} of {self.rows} rows and {self.columns} columns')
        self._set_place(min(max(row, 1), self.rows) - 1, min(max(column, 1), self.columns) - 1)

    def _set_place(self, row, column):
        self.row = row
        self.column = column
        self._wrap_pending = False

    def _set_paste(self, is_on):
        self.paste = is_on

    def _set_cursor_visible(self, is_visible):
        self.cursor_visible = is_visible

    def _enter(self):
        if self.alternate:
            self._fault(SEQUENCE, 'enters the alternate screen twice')
        self._saved_cursor = (self.row, self.column)
        self.alternate = True
        self._erase_all()

    def _leave(self):
        """Terminals differ in whether this restores the attributes, so it does not."""
        if self.alternate:
            self.alternate = False
            row, column = self._saved_cursor
            self._set_place(min(row, self.rows - 1), min(column, self.columns - 1))

    def _erase_right(self):
        """From the cursor on; where a wrap is pending that is the cell of the last column, as in xterm."""
        self.cells[self.row][self.column:] = [BLANK] * (self.columns - self.column)
        self._wrap_pending = False

    def _erase_below(self):
        self._erase_right()
        self.cells[self.row + 1:] = self._blank_rows(self.rows - self.row - 1)

    def _erase_all(self):
        self.cells[:] = self._blank_rows(self.rows)
        self._wrap_pending = False

    def _control(self, byte):
        if self.alternate or byte not in b'\r\n':
            self._fault(CONTROL, f'control byte {byte!r}')
        if byte == b'\r':
            self._set_place(self.row, 0)
        elif byte == b'\n':
            self._line_feed()

    def _line_feed(self):
        if self.row + 1 < self.rows:
            self._set_place(self.row + 1, self.column)
        else:
            self.cells[:] = self.cells[1:] + self._blank_rows(1)
            self._wrap_pending = False

    def _wrap(self, text):
        """Long lines are allowed on the main screen: there the terminal itself echoes what is typed."""
        if self.alternate:
            self._fault(PLACE, f'writes past the last column: {text[:20]!r}')
        self._line_feed()
        self._set_place(self.row, 0)

    def _put(self, text):
        for symbol in sorted(set(text)):
            if not _is_single(symbol):
                self._fault(ENCODING, f'U+{ord(symbol):04X} does not take one column')
        while text:
            if self._wrap_pending:
                self._wrap(text)
            room = self.columns - self.column
            cells = [(symbol, self.attributes) for symbol in text[:room]]
            self.cells[self.row][self.column:self.column + len(cells)] = cells
            self._wrap_pending = len(cells) == room
            self.column = min(self.column + len(cells), self.columns - 1)
            text = text[room:]
