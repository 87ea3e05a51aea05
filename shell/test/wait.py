#!/usr/bin/env python3
"""
How long a key waits in the whole program, measured in a pseudo-terminal.

    wait.py PROGRAM [TRIES]

Each try pastes a formula with two parts that take nearly as many steps as are let through, sends a key at a random
moment of the work, and takes the time up to the frame that shows the key. To be run from the project's root.
"""
import sys

sys.dont_write_bytecode = True

import os
import random
import statistics
import time

import driver
from scenario import row_texts, write_bytes

RECORDING = 'target/screens/wait.txt'

# Seconds that the work takes, or somewhat longer: the key is sent within them.
WORK = 0.13


def formula(number):
    """Runs within runs, with six members in the inner body; another number makes other entries."""
    def run(constant):
        return f'data.countWhere(\\a -> data.countWhere(\\b -> b{".add(a)" * 5}.add({constant})))'
    return f'{run(2 * number)}.add({run(2 * number + 1)})'.encode()


def waited(program, number):
    """The seconds that a key waits, if it is sent during the work for the formula of this number."""
    program.send(driver.KEYS['End'] + driver.KEYS['Ctrl-U'])
    program.settle()
    program.send(driver.PASTE_BEGIN + formula(number) + driver.PASTE_END)
    moment = time.monotonic() + random.uniform(0, WORK)
    while time.monotonic() < moment:
        program.read(moment - time.monotonic())

    def is_shown():
        return any(row.startswith('> ') and row.endswith('#') for row in row_texts(program.terminal))
    start = time.monotonic()
    program.send(b'#')
    if not program.wait_for(is_shown):
        raise driver.ProgramError('does not show the key')
    return time.monotonic() - start


def main():
    tries = int(sys.argv[2]) if len(sys.argv) > 2 else 100
    os.makedirs(os.path.dirname(RECORDING), exist_ok=True)
    write_bytes(RECORDING, ' '.join(str(90 + at % 90) for at in range(1024)).encode())
    random.seed(1)
    with driver.Program([sys.argv[1], RECORDING], 200, 60) as program:
        program.wait_for(lambda: program.transcript)
        program.settle()
        waits = [1000 * waited(program, number) for number in range(1, tries + 1)]
    print(f'a key in a terminal, {tries} tries: median {statistics.median(waits):.1f} ms, longest {max(waits):.1f} ms')


if __name__ == '__main__':
    main()
