"""Runs a program in a pseudo-terminal and keeps what it shows."""
import errno
import fcntl
import os
import select
import signal
import struct
import subprocess
import termios
import time

from terminal import Terminal

# Seconds after which a program that does not do what it should is taken to hang.
LIMIT = 20

# Seconds without output after which a program that waits is taken to have written all it had.
QUIET = 0.05

# Bytes of the output's end that are kept as they came; up to twice as many, so that they are seldom moved.
TRANSCRIPT_BYTES = 1 << 20

# What the program writes last in each frame: it shows the cursor.
FRAME_END = b'\x1b[?25h'

PASTE_BEGIN = b'\x1b[200~'
PASTE_END = b'\x1b[201~'

# What a terminal sends for a key.
KEYS = {
    'Left': b'\x1b[D', 'Right': b'\x1b[C', 'Up': b'\x1b[A', 'Down': b'\x1b[B', 'Home': b'\x1b[H', 'End': b'\x1b[F',
    'Backspace': b'\x7f', 'Delete': b'\x1b[3~', 'Enter': b'\r', 'Tab': b'\t', 'Escape': b'\x1b',
    'Ctrl-Left': b'\x1b[1;5D', 'Ctrl-Right': b'\x1b[1;5C', 'Alt-Left': b'\x1b[1;3D', 'Alt-Right': b'\x1b[1;3C',
    'Alt-b': b'\x1bb', 'Alt-f': b'\x1bf',
    **{f'Ctrl-{chr(0x40 + number)}': bytes([number]) for number in range(1, 27)},
}


class ProgramError(Exception):
    """The program can't be started, or does not do what it should."""


def default_environment():
    """The environment that programs get: this one's, but for what decides how a terminal is used."""
    kept = {name: value for name, value in os.environ.items() if name != 'LANG' and not name.startswith('LC_')}
    for name in ('NO_COLOR', 'COLUMNS', 'LINES', 'LANGUAGE'):
        kept.pop(name, None)
    return {**kept, 'TERM': 'xterm-256color', 'LC_ALL': 'C.UTF-8'}


def _take_terminal():
    """In the new process: makes the pseudo-terminal its controlling one. Ignored signals would be inherited."""
    for number in (signal.SIGHUP, signal.SIGINT, signal.SIGQUIT, signal.SIGTERM):
        signal.signal(number, signal.SIG_DFL)
    fcntl.ioctl(1, termios.TIOCSCTTY, 0)


class Program:
    """
    A program that leads a session of its own, with a pseudo-terminal as controlling terminal and output. Its
    standard input and error are that terminal too where they are not given. All it writes goes to `terminal`.
    """

    def __init__(self, words, columns=80, rows=24, environment=None, standard_input=None, standard_error=None):
        self.terminal = Terminal(columns, rows)
        self.transcript = bytearray()
        self.output_ended = False
        self._unfed = b''  # what was read and not yet shown
        self._is_closed = False
        self.status = None  # its exit status, or the name of the signal that ended it
        self.attributes_after = None
        self._master, slave = os.openpty()
        try:
            self.attributes_before = termios.tcgetattr(slave)
            self._set_size(columns, rows)
            os.set_blocking(self._master, False)
            self._process = subprocess.Popen(
                words, stdin=slave if standard_input is None else standard_input, stdout=slave,
                stderr=slave if standard_error is None else standard_error, start_new_session=True,
                preexec_fn=_take_terminal, env=default_environment() if environment is None else environment)
        except (OSError, subprocess.SubprocessError) as error:
            os.close(self._master)
            raise ProgramError(f'can\'t be started: {error}') from error
        finally:
            os.close(slave)

    def __enter__(self):
        return self

    def __exit__(self, *_):
        self.close()

    def _set_size(self, columns, rows):
        fcntl.ioctl(self._master, termios.TIOCSWINSZ, struct.pack('HHHH', rows, columns, 0, 0))

    def read(self, seconds=0.0):
        """
        Reads into the terminal up to the end of a frame, or what there is, and waits for it if need be; gives whether
        there was something. So each frame can be looked at, however fast they come.
        """
        if FRAME_END not in self._unfed:
            self._unfed += self._read_all(seconds)
        frame, end, self._unfed = self._unfed.partition(FRAME_END)
        self.terminal.feed(frame + end)
        if self._is_closed and not self._unfed and not self.output_ended:
            self.output_ended = True
            self.terminal.finish()
        return bool(frame or end)

    def _read_all(self, seconds):
        """What the program has written; waits for it if need be."""
        written = b''
        if self._is_closed or not select.select([self._master], [], [], max(seconds, 0))[0]:
            return written
        for _ in range(64):
            try:
                data = os.read(self._master, 65536)
            except BlockingIOError:
                break
            except OSError as error:
                if error.errno != errno.EIO:  # which says that the program's side is closed
                    raise
                data = b''
            if not data:
                self._is_closed = True
                break
            self._keep(data)
            written += data
        return written

    def _keep(self, data):
        self.transcript += data
        if len(self.transcript) > 2 * TRANSCRIPT_BYTES:
            del self.transcript[:-TRANSCRIPT_BYTES]

    def wait_for(self, predicate, seconds=LIMIT):
        """Reads until something holds; gives whether it does. Ends sooner where the output ends."""
        deadline = time.monotonic() + seconds
        while not predicate():
            left = deadline - time.monotonic()
            if self.output_ended or left <= 0:
                return False
            self.read(left)
        return True

    def settle(self, quiet=QUIET, seconds=LIMIT):
        """Reads until the program waits and has written nothing for some time; gives whether it came to that."""
        deadline = time.monotonic() + seconds
        while time.monotonic() < deadline and not self.output_ended:
            if not self.read(quiet) and self._is_waiting():
                return True
        return self.output_ended

    def _is_waiting(self):
        """Whether the program sleeps. Where the system does not tell, it is taken to."""
        try:
            with open(f'/proc/{self._process.pid}/stat', 'rb') as file:
                return file.read().rpartition(b')')[2].split()[0] not in (b'R', b'D')
        except OSError:
            return True

    def send(self, data, seconds=LIMIT):
        """Sends bytes as keys are sent, in one write if the terminal takes them all, and reads meanwhile."""
        deadline = time.monotonic() + seconds
        while data:
            left = deadline - time.monotonic()
            if self.output_ended:
                raise ProgramError('has ended before all keys were sent')
            if left <= 0:
                raise ProgramError(f'has not read its keys within {seconds} s')
            readable, writable, _ = select.select([self._master], [self._master], [], left)
            if readable:
                self.read()
            if writable and not self.output_ended:
                data = data[self._write(data):]

    def _write(self, data):
        try:
            return os.write(self._master, data)
        except BlockingIOError:
            return 0
        except OSError as error:
            if error.errno != errno.EIO:
                raise
            return 0

    def resize(self, columns, rows):
        """Gives the terminal another size, of which the program is told by SIGWINCH."""
        self.terminal.resize(columns, rows)
        self._set_size(columns, rows)

    def signal(self, number):
        """Sends a signal to the program, if it still runs."""
        self._process.send_signal(number)

    def wait(self, seconds=LIMIT):
        """Reads until the program ends; gives its status, or None where it does not end in time."""
        deadline = time.monotonic() + seconds
        self.wait_for(lambda: False, seconds)
        try:
            code = self._process.wait(max(deadline - time.monotonic(), 0.1))
        except subprocess.TimeoutExpired:
            return None
        self.wait_for(lambda: False, 1)
        if self.status is None:
            self.status = code if code >= 0 else signal.Signals(-code).name
            self.attributes_after = termios.tcgetattr(self._master)
        return self.status

    def left_behind(self):
        """What a program that has ended has not put back, in words."""
        wrong = {
            'the alternate screen is still on': self.terminal.alternate,
            'the cursor is still hidden': not self.terminal.cursor_visible,
            'the paste mode is still on': self.terminal.paste,
            'the last SGR is not reset': bool(self.terminal.attributes),
            'the terminal attributes differ from those before the start':
                self.attributes_after != self.attributes_before,
        }
        return [words for words, is_wrong in wrong.items() if is_wrong]

    def close(self):
        """Kills the program if it still runs."""
        if self._process.poll() is None:
            self._process.kill()
            self._process.wait()
        if self._master >= 0:
            os.close(self._master)
            self._master = -1
