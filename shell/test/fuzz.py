#!/usr/bin/env python3
"""
Tries the formula screen with recordings and keys that nobody would make.

    fuzz.py PROGRAM SECONDS [SEED]

To be run from the project's root. A round runs PROGRAM --plain over some recordings, then PROGRAM in a terminal with a
few thousand bytes of keys. Round N has the seed SEED + N, so that a fault comes again in the first round from its own
seed, as far as it does not depend on the time. Rounds begin until the seconds are over; each is run to its end. The
exit status is 0 where there was no fault.
"""
import sys

sys.dont_write_bytecode = True

import os
import random
import shutil
import subprocess
import tempfile
import time

import driver
from terminal import PLACE

RECORDINGS_A_ROUND = 8

SANITIZER_WORDS = (b'Sanitizer', b'runtime error')

# The bytes that leave or stop the program: Ctrl-C, Ctrl-D and Ctrl-Z.
LEAVING = (0x03, 0x04, 0x1a)

KEYS = [data for data in driver.KEYS.values() if data[0] not in LEAVING]

PIECES = [
    b'data', b'.skip(', b'.take(', b'.sum()', b'.count()', b'.max()', b'.add(', b'.div(', b'.sumBy(', b'.countWhere(',
    b'.longestRun(', b'let x = ', b' in ', b'\\a -> ', b'\\b -> b.gt(150)', b')', b'))', b'(', b'x', b'a', b'1', b'0',
    b'240', b'-7', b'2147483647', b'2147483648', b' ', b'? 2', b'# ',
    b'let hard = data.skip(40).take(160) in hard.max()', b'data.sumBy(\\p -> data.countWhere(\\q -> q.gt(p)))',
    b'\xe2\x96\x81', b'\xc3\xa9', b'\xf0\x9f\x8f\x83']

BROKEN = [
    b'\x1b', b'\x1b[', b'\x1bO', b'\x1b[1', b'\x1b[1;', b'\x1b[1;5', b'\x1b[200', b'\x1b[201', b'\x1b[201~', b'\x1b[3',
    b'\x1b[;;;;;;~', b'\x1b[99999999999999999999~', b'\x1b[1;99999999999D', b'\x1b[<0;1;1M', b'\x1b[?1;2c',
    b'\x1b\x1b[D', b'\x1b]0;title\x07', b'\x1bP', b'\x1b[\x1b[C', b'\x1b[M   ', b'\xe2\x96', b'\xf0', b'\x80',
    b'\xff\xfe', b'\x9b']


class Fault(Exception):
    """What the program did wrong, in one line, and what it wrote about it."""

    def __init__(self, text, detail=b''):
        super().__init__(text)
        self.detail = bytes(detail[-10000:]).decode(errors='backslashreplace')


def check_sanitizer_words(data):
    if any(word in data for word in SANITIZER_WORDS):
        raise Fault('a sanitizer has found something', data)


def number(rng):
    """A number's word; most are readings, some stand at the limits."""
    ranges = [(60, 200)] * 6 + [(-2**31, 2**31 - 1), (2**31 - 2, 2**31 + 1), (-2**31 - 2, -2**31 + 1), (0, 10**30)]
    return b'%s%d' % (rng.choice([b''] * 9 + [b'+', b'-', b'00']), rng.randint(*rng.choice(ranges)))


def readings(rng, most):
    """A recording as it should be, but for numbers that are out of range now and then."""
    words = []
    for _ in range(rng.randint(0, most)):
        words += [number(rng) if rng.random() < 0.01 else b'%d' % rng.randint(60, 200)]
        words += [rng.choice([b' '] * 20 + [b'\n', b'\r\n', b'\t', b'   ', b' # a comment\n'])]
    return b''.join(words)


def damaged(rng):
    data = bytearray(readings(rng, 300) or b'1')
    data[rng.randrange(len(data))] = rng.randrange(256)
    return bytes(data)


def long_words(rng):
    """A word, a comment or blanks of great length between numbers."""
    length = rng.choice([30, 31, 32, 33, 255, 256, 4096, 65536, 200000])
    word = rng.choice([b'7', b'0', b'x', b'-', b'#', b' ', b'\n', b'1 ', b'\xff'])
    return b'1 2\n' + rng.choice([b'', b'#', b'-']) + word * length + rng.choice([b'', b'\n', b' 5\n'])


RECORDINGS = [
    lambda rng: rng.randbytes(rng.randint(0, 4000)),
    lambda rng: bytes(rng.choices(b'0123456789+-# \t\r\n', k=rng.randint(0, 3000))),
    damaged,
    long_words,
    lambda rng: readings(rng, 3000),
    lambda rng: b' '.join(b'%d' % rng.randint(60, 200) for _ in range(rng.randint(1020, 1028))),
]


def formula(rng):
    return b''.join(rng.choices(PIECES, k=rng.randint(1, 12)))


def input_lines(rng):
    """A few lines for the plain mode."""
    lines = [rng.choice([formula(rng), formula(rng), rng.randbytes(rng.randint(0, 40)), b'? 1', b'data' * 300])
             for _ in range(rng.randint(0, 5))]
    return b'\n'.join(lines) + rng.choice([b'', b'\n'])


def try_recording(program, rng, folder):
    """Runs the plain mode over a recording of some kind."""
    path = os.path.join(folder, 'recording')
    lines = input_lines(rng)
    for name, data in (('recording', rng.choice(RECORDINGS)(rng)), ('input', lines)):
        with open(os.path.join(folder, name), 'wb') as file:
            file.write(data)
    try:
        done = subprocess.run([program, '--plain', path], input=lines, capture_output=True, timeout=driver.LIMIT,
                              env=driver.default_environment())
    except subprocess.TimeoutExpired:
        raise Fault(f'--plain does not end within {driver.LIMIT} s') from None
    error = done.stderr
    check_sanitizer_words(error)
    if done.returncode not in (0, 1):
        raise Fault(f'--plain: the status is {done.returncode}', error)
    is_plain = all(byte == 0x0a or 0x20 <= byte <= 0x7e for byte in error)
    if done.returncode == 1 and not (error.startswith(b'formula: ') and is_plain):
        raise Fault('--plain: the message has no formula: before it, or bytes that are not printed', error)


def stray_bytes(rng):
    return bytes(byte for byte in rng.randbytes(rng.randint(1, 30)) if byte not in LEAVING)


def paste(rng):
    """A paste, which in one of four cases is not ended."""
    content = rng.choice([formula(rng), formula(rng) + b'\n' + formula(rng), stray_bytes(rng), b'data ' * 300])
    return driver.PASTE_BEGIN + content + rng.choice([driver.PASTE_END] * 3 + [b''])


KEY_KINDS = [
    stray_bytes,
    lambda rng: b''.join(rng.choices(KEYS, k=rng.randint(1, 10))),
    formula,
    formula,
    lambda rng: rng.choice(BROKEN),
    paste,
]


def size(rng):
    most = rng.choice([(3, 3), (20, 10), (80, 24), (200, 60)])
    return rng.randint(1, most[0]), rng.randint(1, most[1])


def key_actions(rng):
    """What a terminal session is made of: chunks of bytes, cut anywhere, and sizes."""
    keys = b''
    for _ in range(rng.randint(20, 150)):
        keys += rng.choice(KEY_KINDS)(rng)
    while keys:
        length = rng.choice([1, rng.randint(1, 8), rng.randint(1, 80), rng.randint(1, 1000)])
        yield keys[:length]
        keys = keys[length:]
        if rng.random() < 0.1:
            yield size(rng)


class Session:
    """One start of the program in a terminal."""

    def __init__(self, program, rng, folder):
        self.rng = rng
        self.size = size(rng) if rng.random() < 0.5 else (80, 24)
        self.folder = folder
        self.sent = 0
        self.error = open(os.path.join(folder, 'error'), 'w+b')
        self.log = open(os.path.join(folder, 'session.keys'), 'w')
        self.write('arguments shell/interval.txt', f'size {self.size[0]} {self.size[1]}', 'start')
        self.program = driver.Program([program, 'shell/interval.txt'], *self.size, standard_error=self.error)

    def write(self, *lines):
        """Keeps what is done as a scenario, from which it can be repeated."""
        self.log.write(''.join(f'{line}\n' for line in lines))
        self.log.flush()

    def run(self):
        try:
            self.program.wait_for(lambda: self.program.transcript)
            self.settle()
            for action in key_actions(self.rng):
                self.take(action)
            self.settle()
            self.send(driver.PASTE_END + driver.KEYS['Ctrl-C'])
            self.write('exit 0')
            self.check_end(self.program.wait())
        except driver.ProgramError as error:
            raise Fault(f'{error}; its status is {self.program.wait(1)}', self.errors()) from error
        finally:
            self.program.close()
            self.error.close()
            self.log.close()

    def take(self, action):
        if isinstance(action, tuple):
            self.write('resize {} {}'.format(*action))
            self.program.resize(*action)
            self.settle()
            # What was still drawn for the old size may have been out of place in the new one.
            faults = self.program.terminal.faults
            faults[:] = [fault for fault in faults if fault.kind != PLACE]
        else:
            self.send(action)
            self.program.read(self.rng.choice([0, 0, 0.002, 0.06]))
        self.check_faults()

    def settle(self):
        if not self.program.settle():
            raise Fault(f'works on for {driver.LIMIT} s')

    def send(self, data):
        self.write(f'bytes {data.hex(" ")}')
        self.sent += len(data)
        self.program.send(data)

    def errors(self):
        self.error.seek(0)
        return self.error.read()

    def check_faults(self):
        if self.program.terminal.faults:
            raise Fault('; '.join(fault.text for fault in self.program.terminal.faults))

    def check_end(self, status):
        """What must hold after Ctrl-C."""
        self.check_faults()
        check_sanitizer_words(self.errors())
        check_sanitizer_words(self.program.transcript)
        if status != 0:
            still = f'still runs {driver.LIMIT} s after Ctrl-C'
            raise Fault(still if status is None else f'the status is {status}', self.errors())
        if self.program.left_behind():
            raise Fault('; '.join(self.program.left_behind()))


class Fuzz:
    """Rounds over a program, with what was done so far."""

    def __init__(self, program, seed, folder):
        self.program = program
        self.seed = seed
        self.folder = folder
        self.recordings = 0
        self.sent = 0
        self.starts = 0

    def round(self):
        """Some recordings, then a terminal session."""
        rng = random.Random(self.seed + self.starts)
        for _ in range(RECORDINGS_A_ROUND):
            try_recording(self.program, rng, self.folder)
            self.recordings += 1
        session = Session(self.program, rng, self.folder)
        session.run()
        self.starts += 1
        self.sent += session.sent

    def run(self, seconds):
        """Runs rounds until the time is over; gives the exit status."""
        deadline = time.monotonic() + seconds
        try:
            while self.starts == 0 or time.monotonic() < deadline:
                self.round()
        except (Fault, driver.ProgramError, OSError) as fault:
            if getattr(fault, 'detail', ''):
                print(fault.detail)
            print(f'fuzz: {fault}. To repeat: fuzz.py {self.program} 1 {self.seed + self.starts}; '
                  f'{self.folder} has the last recording, input and keys')
            return 1
        print(f'fuzz: recordings {self.recordings}, keys {self.sent} bytes in {self.starts} starts: no fault')
        shutil.rmtree(self.folder)
        return 0


def main():
    if len(sys.argv) not in (3, 4):
        print('usage: fuzz.py PROGRAM SECONDS [SEED]', file=sys.stderr)
        return 2
    seed = int(sys.argv[3]) if len(sys.argv) == 4 else random.SystemRandom().randrange(2**31)
    sys.stdout.reconfigure(encoding='utf-8', errors='backslashreplace')
    print(f'fuzz: seed {seed}', flush=True)
    return Fuzz(sys.argv[1], seed, tempfile.mkdtemp(prefix='fuzz-')).run(float(sys.argv[2]))


if __name__ == '__main__':
    sys.exit(main())
