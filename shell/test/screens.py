#!/usr/bin/env python3
"""
Runs scenarios: keys for a program in a pseudo-terminal, and the screens that they must lead to.

    screens.py [--write] PROGRAM SCENARIO...

To be run from the project's root. The last line is 'screens: N passed, M failed'; the exit status is 0 only where none
failed. With --write the screens and pictures that are seen are stored instead of compared. What a scenario says is
told in scenario.py.
"""
import sys

sys.dont_write_bytecode = True

import argparse
import difflib
import os
import re
import shlex
import signal

import driver
import scenario
from driver import LIMIT
from scenario import Failure, encoded, parsed, read_text, row_texts, screen_lines, unescaped, without_blank_end

# Seconds without output before a screen is stored.
WRITE_QUIET = 0.4

# Recordings have the same path in each run, because screens show it.
RECORDINGS = 'target/screens'


def code_block(lines):
    """The first code block of a Markdown text: its first line, the one behind its last, and its indentation."""
    for at, line in enumerate(lines):
        fence = re.match(r' {0,3}(```+|~~~+)', line)
        if fence:
            ends = (end for end in range(at + 1, len(lines)) if lines[end].strip().startswith(fence[1]))
            return at + 1, next(ends, len(lines)), ''
        if line.startswith('    ') and line.strip() and not (at and lines[at - 1].strip()):
            others = (end for end in range(at, len(lines)) if lines[end].strip() and not lines[end].startswith('    '))
            block = without_blank_end([text.strip() for text in lines[at:next(others, len(lines))]], '')
            return at, at + len(block), '    '
    raise Failure('there is no code block')


def difference(stored, seen):
    return '\n'.join(difflib.unified_diff(stored, seen, 'stored', 'seen', lineterm=''))


class Run:
    """A run of a scenario over a program."""

    def __init__(self, path, program, is_writing, values):
        self.name = os.path.splitext(os.path.basename(path))[0]
        self.lines = read_text(path).split('\n')
        self.is_writing = is_writing
        self.path = path
        self.command = program
        self.arguments = []
        self.environment = driver.default_environment()
        self.input = None
        self.size = (80, 24)
        self.values = values
        self.program = None
        self.seen = []       # steps with the lines of their screens, to be stored
        self.pictures = {}   # by path: the lines of a file with its picture, to be stored
        self.picture = None  # the rows of the screen seen last

    def run(self):
        """Raises a failure where the program does not do what the scenario says."""
        try:
            for step in parsed(self.lines):
                self.take(step)
            self.finish()
        finally:
            if self.program:
                self.program.close()
        if self.is_writing:
            self.store()

    def take(self, step):
        """Does one step."""
        try:
            method = getattr(self, f'do_{step.command}', None)
            if method is None:
                raise Failure('unknown command')
            self.admit(step.command)
            method(step)
        except (Failure, driver.ProgramError, OSError, ValueError) as error:
            raise Failure(f'line {step.line + 1}: {step.command}: {error}') from error

    def admit(self, command):
        """Starts the program where a command needs it; refuses commands that come too late."""
        if command in scenario.BEFORE_START:
            if self.program:
                raise Failure('the program has been started')
            return
        if not self.program:
            self.start()
        if self.program.status is not None and command not in scenario.AFTER_END:
            raise Failure('the program has ended')

    def start(self):
        words = [self.command, *map(self.with_values, self.arguments)]
        source = open(self.with_values(self.input), 'rb') if self.input else None
        try:
            self.program = driver.Program(words, *self.size, self.environment, source)
        finally:
            if source:
                source.close()
        # Keys that come before the program has set the terminal's mode would be echoed, or lost.
        self.program.wait_for(lambda: self.program.transcript)
        self.program.settle()

    def finish(self):
        """The end of a scenario: the program is left by Ctrl-C where nothing has ended it."""
        if not self.program:
            self.start()
        if self.program.status is None:
            try:
                self.program.send(driver.KEYS['Ctrl-C'])
                self.end_with('0')
            except (Failure, driver.ProgramError) as error:
                raise Failure(f'Ctrl-C at the end: {error}') from error

    def store(self):
        """Writes what was seen. The last screen comes first, so that the lines of earlier steps keep their numbers."""
        for step, lines in reversed(self.seen):
            self.lines[step.begin:step.end] = [f'  {line}' for line in lines]
        for path, lines in {self.path: self.lines, **self.pictures}.items():
            scenario.write_bytes(path, encoded('\n'.join(lines)))

    def with_values(self, word):
        """A word with what names stand for put in: paths of recordings, and the value of this run."""
        def value(match):
            if match[1] not in self.values:
                raise Failure(f'nothing is named {match[1]}')
            return self.values[match[1]]
        return re.sub(r'\$([A-Za-z]\w*)', value, word)

    def do_arguments(self, step):
        self.arguments = shlex.split(step.rest)

    def do_recording(self, step):
        name, _, text = step.rest.partition(' ')
        os.makedirs(RECORDINGS, exist_ok=True)
        self.values[name] = f'{RECORDINGS}/{self.name}.{name}'
        scenario.write_bytes(self.values[name], unescaped(text) + b'\n')

    def do_each(self, step):
        """The name has a value already: main has begun a run for each."""

    def do_environment(self, step):
        for word in shlex.split(step.rest):
            name, is_set, value = word.partition('=')
            if is_set:
                self.environment[name] = value
            elif name.startswith('-'):
                self.environment.pop(name[1:], None)
            else:
                raise Failure(f'neither NAME=VALUE nor -NAME: {word}')

    def do_input(self, step):
        self.input = step.rest.strip()

    def do_size(self, step):
        self.size = scenario.size(step.rest)

    def do_start(self, step):
        """Nothing is left to be done: the command has started the program."""

    def do_type(self, step):
        self.program.send(encoded(step.rest))

    def do_press(self, step):
        self.program.send(b''.join(map(scenario.key_bytes, step.rest.split())))

    def do_bytes(self, step):
        self.program.send(bytes.fromhex(step.rest))

    def do_send(self, step):
        self.program.send(unescaped(step.rest))

    def do_paste(self, step):
        if not self.program.terminal.paste:
            raise Failure('the program has not asked for pastes to be marked')
        self.program.send(driver.PASTE_BEGIN + unescaped(step.rest) + driver.PASTE_END)

    def do_resize(self, step):
        """What is still drawn for the old size would be at fault in the new one, so that it is waited for."""
        columns, rows = scenario.size(step.rest)
        self.program.settle()
        self.check_faults()
        self.program.resize(columns, rows)

    def do_signal(self, step):
        """A signal may come before keys that were sent, so that these are waited for."""
        name = f'SIG{self.with_values(step.rest).strip()}'
        if name not in signal.Signals.__members__:
            raise Failure(f'unknown signal {name}')
        self.program.settle()
        self.program.signal(signal.Signals[name])
        self.program.settle()

    def do_screen(self, step):
        self.expect(step, True)

    def do_output(self, step):
        self.expect(step, False)

    def do_passing(self, step):
        """As a screen; when it is stored, it is the first one with these words."""
        if self.is_writing:
            self.do_seen(step)
        self.expect(step, True, is_passing=True)

    def do_seen(self, step):
        """Waits for a frame that has some words, parted by bars."""
        words = [word.strip() for word in step.rest.split('|')]

        def has_words():
            text = '\n'.join(row_texts(self.program.terminal))
            return all(word in text for word in words)
        if not self.program.wait_for(has_words):
            raise self.failure([f'no frame has the words {words}'])

    def expect(self, step, is_alternate, is_passing=False):
        """Waits for a screen, or stores it: the one that stays, if it is not passing."""
        terminal = self.program.terminal
        stored = [line.strip(' ') for line in self.lines[step.begin:step.end]]
        stored = without_blank_end([line for line in stored if line], '|')

        def is_there():
            return terminal.alternate == is_alternate and screen_lines(terminal) == stored
        if not is_passing:
            self.program.settle(WRITE_QUIET if self.is_writing else driver.QUIET)
        if not self.is_writing:
            self.program.wait_for(lambda: terminal.faults or is_there(), LIMIT)
        self.check_faults()
        if terminal.alternate != is_alternate or not (self.is_writing or is_there()):
            kind = 'alternate' if terminal.alternate else 'main'
            end = f', after the program has ended with {self.program.wait()}' if self.program.output_ended else ''
            raise Failure(f'the {kind} screen is seen{end}\n{difference(stored, screen_lines(terminal))}')
        self.seen.append((step, screen_lines(terminal)))
        self.picture = without_blank_end(row_texts(terminal), '')

    def check_faults(self):
        if self.program.terminal.faults:
            raise self.failure([fault.text for fault in self.program.terminal.faults])

    def failure(self, wrong):
        """Says what is wrong, and what the screen shows: that may be the words of the program about it."""
        return Failure('\n'.join(['; '.join(wrong), *screen_lines(self.program.terminal)]))

    def do_exit(self, step):
        self.end_with(self.with_values(step.rest).strip())

    def end_with(self, expected):
        """Waits for the program's end and looks at what it leaves."""
        status = self.program.wait()
        self.check_faults()
        if status is None:
            raise self.failure([f'the program still runs after {LIMIT} s, and is killed'])
        wrong = [] if str(status) == expected else [f'the status is {status}, not {expected}']
        wrong += self.program.left_behind()
        if wrong:
            raise self.failure(wrong)

    def do_picture(self, step):
        path = step.rest.strip()
        lines = self.pictures.get(path) or read_text(path).split('\n')
        begin, end, indentation = code_block(lines)
        stored = without_blank_end([line[len(indentation):].rstrip() for line in lines[begin:end]], '')
        if self.picture is None:
            raise Failure('no screen has been seen before')
        if self.is_writing:
            lines[begin:end] = [(indentation + row).rstrip() for row in self.picture]
            self.pictures[path] = lines
        elif stored != self.picture:
            raise Failure(f'the code block is another screen\n{difference(stored, self.picture)}')


def main():
    parser = argparse.ArgumentParser(usage='screens.py [--write] PROGRAM SCENARIO...')
    parser.add_argument('--write', action='store_true')
    parser.add_argument('program')
    parser.add_argument('scenarios', nargs='+')
    options = parser.parse_args()
    sys.stdout.reconfigure(encoding='utf-8', errors='backslashreplace')
    failed = 0
    for path in options.scenarios:
        name = os.path.splitext(os.path.basename(path))[0]
        try:
            for values in scenario.each_values(path):
                Run(path, options.program, options.write, values).run()
            print(f'screens {name}: {"written" if options.write else "passed"}', flush=True)
        except (Failure, driver.ProgramError, OSError) as error:
            failed += 1
            print(f'screens {name}: {error}', flush=True)
    print(f'screens: {len(options.scenarios) - failed} passed, {failed} failed')
    return 1 if failed else 0


if __name__ == '__main__':
    sys.exit(main())
