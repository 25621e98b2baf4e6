#!/usr/bin/env python3
"""Measures steps: instructions a step of `cpm run`, and of a plain Rust interpreter of the same shape.

The script builds plain/main.rs itself, by rustc. A count is the difference of two runs under `valgrind --tool=callgrind`, of more and
of fewer rounds, so it doesn't depend on the load of the machine. The variables that both programs leave are compared. It takes some minutes.
"""
import pathlib
import re
import subprocess
import tempfile

from measuring import CPM, ROOT, instructions, show
from workers import PROCESSES, ended_text

PLAIN = ROOT / 'bench' / 'plain' / 'main.rs'
TEXTS = ROOT / 'bench' / 'texts'
TURN = 10_000
# In round 1 processes are started, so one less are turns of their own.
FEWER, MORE = 6, 26
ROUNDS_OF_BUFFER = 51, 551
GOAL_OF_LOOP = 74
GOAL_OF_RATIO = 0.8
GOAL_OF_VARIABLES = 0.7
GOAL_OF_MONITORS = 0.9
GOAL_AT_REST = 60
# What each text does in private steps.
BESIDE_PLAIN = {
    'sorting': 'fills an array of 100 integers and sorts it, by a routine with a `var` parameter',
    'records': 'fills an array of 60 records and sorts it, by routines with `var` parameters',
    'matrices': 'multiplies matrices whose elements are matrices',
    'nested': 'moves points in arrays in records in an array, and calls a class that has a class',
    'calls': 'calls functions in expressions, five deep',
}

# Those that show what parts of variables cost.
OF_VARIABLES = {'records', 'matrices'}

# By hand from the texts. A worker of classes.cp makes one round of its cycle in each round: `cycle`, `for` with 50 times 7 steps for two calls and
# 50 that count, then 3 for the tally, 4 in each monitor, and 3 to restart the generator.
WORKERS, STEPS_OF_WORKER = 16, 416
PROCESSES_OF_BUFFER = 17
# An item of buffer.cp takes nine steps to be put and ten to be taken; who waits makes three steps more, and so does who resumes it.
STEPS_OF_ITEM, STEPS_OF_WAIT = 19, 6
# A line of buffers.cp takes 32 steps to be made and put into the first buffer, 27 to be taken from it and changed, and 31 to be put into the second one,
# taken from it and added up.
STEPS_OF_LINES = 59, 31


def run_text(text, rounds, turn=TURN):
    return instructions([CPM, 'run', text, '--rounds', rounds, '--turn', turn, '--workers', 1])


def found_variables(report):
    """The variables in a report, each with its path."""
    return [(path, int(value)) for path, value in re.findall(r'^var (\S+) = (-?\d+)$', report, re.MULTILINE)]


def variables(report):
    """The variables in a report, by their paths. Of several processes that have one, the last one counts."""
    return dict(found_variables(report))


def measure(text, fewer=FEWER, more=MORE):
    """The instructions between two numbers of rounds, and the two reports."""
    (few, first), (many, second) = (run_text(TEXTS / f'{text}.cp', rounds) for rounds in (fewer, more))
    return many - few, first, second


def measure_plain(plain, text, reports, fewer=FEWER, more=MORE):
    """The same of the plain program, which has to leave the variables of the reports."""
    counts = []
    for rounds, report in zip((fewer, more), reports):
        taken, left = instructions([plain, text, rounds - 1])
        if [value for _, value in found_variables(report)] != [int(line) for line in left.split()]:
            raise SystemExit(f'{text}: the two programs leave other variables')
        counts.append(taken)
    return counts[1] - counts[0]


def loop_row():
    taken, _, _ = measure('loop', 1, 11)
    return ['`loop.cp`', 'three assignments in a cycle, in 8 processes', f'{taken / (8 * TURN * 10):.0f}', '', '', GOAL_OF_LOOP]


def row(text, what, taken, plain, steps, goal):
    return [f'`{text}.cp`', what, f'{taken / steps:.0f}', f'{plain / steps:.0f}', f'{taken / plain:.2f}', goal]


def row_beside_plain(plain, text, what):
    """Instructions a step of a text with one process, and of the plain program."""
    taken, *reports = measure(text)
    goal = GOAL_OF_VARIABLES if text in OF_VARIABLES else GOAL_OF_RATIO
    return row(text, what, taken, measure_plain(plain, text, reports), TURN * (MORE - FEWER), goal)


def classes_row(plain):
    taken, *reports = measure('classes')
    first, second = map(variables, reports)
    uses = second['uses'] - first['uses']
    if uses != WORKERS * (MORE - FEWER):
        raise SystemExit(f'classes: the monitor was used {uses} times')
    what = '16 processes with classes of their own and two shared monitors'
    return row('classes', what, taken, measure_plain(plain, 'classes', reports), uses * STEPS_OF_WORKER, GOAL_OF_RATIO)


def monitors_row(plain):
    fewer, more = ROUNDS_OF_BUFFER
    taken, *reports = measure('buffer', fewer, more)
    first, second = map(variables, reports)
    grown = {name: second[name] - first[name] for name in ('taken_items', 'sender_waits', 'receiver_waits')}
    steps = grown['taken_items'] * STEPS_OF_ITEM + (grown['sender_waits'] + grown['receiver_waits']) * STEPS_OF_WAIT
    what = 'a monitor with a buffer and queues, between 8 producers and 8 consumers; most steps are its own'
    return row('buffer', what, taken, measure_plain(plain, 'buffer', reports, fewer, more), steps, GOAL_OF_MONITORS)


def lines_row(plain):
    fewer, more = ROUNDS_OF_BUFFER
    taken, *reports = measure('buffers', fewer, more)
    # Each buffer has these variables, and the first one comes first.
    first, second = ([[value for path, value in found_variables(report) if path == name] for name in ('taken_lines', 'sender_waits', 'receiver_waits')] for report in reports)
    lines, *waits = [[new - old for old, new in zip(*values)] for values in zip(first, second)]
    steps = sum(count * each for count, each in zip(lines, STEPS_OF_LINES)) + STEPS_OF_WAIT * sum(map(sum, waits))
    what = 'two monitors with buffers of lines and queues, between 4 producers, 4 copiers and 4 consumers'
    return row('buffers', what, taken, measure_plain(plain, 'buffers', reports, fewer, more), steps, GOAL_OF_VARIABLES)


def measure_steps():
    with tempfile.TemporaryDirectory() as folder:
        plain = pathlib.Path(folder) / 'plain'
        subprocess.run(['rustc', '-O', '--edition', '2021', '-o', plain, PLAIN], check=True)
        rows = [loop_row(), *(row_beside_plain(plain, text, what) for text, what in BESIDE_PLAIN.items()), classes_row(plain), monitors_row(plain), lines_row(plain)]
    show('steps', ['Text', 'What it does', 'cpm', 'Plain Rust', 'Ratio', 'Goal'], rows)


def buffer_row():
    fewer, more = ROUNDS_OF_BUFFER
    taken, first, second = measure('buffer', fewer, more)
    items = variables(second)['taken_items'] - variables(first)['taken_items']
    rounds = more - fewer
    what = f'8 producers and 8 consumers of a buffer with 4 slots; {items / rounds:.1f} items are moved in a round'
    return ['`buffer.cp`', what, f'{taken / rounds / PROCESSES_OF_BUFFER:.0f}', '']


def text_at_a_monitor(entry):
    """A text whose processes, all but the initial one, stay at this entry of a monitor."""
    names = [f'v{k}' for k in range(PROCESSES)]
    return (f'type m = monitor; var x: integer; q: array [1..{PROCESSES}] of queue; procedure entry stay; {entry}; begin x := 0 end; '
            f'p = process(a: m); begin a.stay end; var a: m; {", ".join(names)}: p; begin init a, {", ".join(f"{name}(a)" for name in names)} end.')


# The first process that enters runs inside forever, so the others ask; or each is delayed in a queue of its own.
AT_REST = {
    '254 processes that have ended': ended_text(),
    '252 processes that ask for a gate, which one more holds': text_at_a_monitor('begin cycle x := x end end'),
    '253 processes that are delayed': text_at_a_monitor('begin x := x + 1; delay(q[x]) end'),
}


def row_at_rest(what, text):
    """Instructions a round of processes that can't move. In turns of one step the initial process takes some 260 rounds to start them."""
    fewer, more = 600, 1_600
    with tempfile.TemporaryDirectory() as folder:
        file = pathlib.Path(folder) / 'rest.cp'
        file.write_text(text)
        (few, _), (many, _) = (run_text(file, rounds, 1) for rounds in (fewer, more))
    taken = (many - few) / (more - fewer) / (PROCESSES + 1)
    return [what, 'nothing', f'{taken:.0f}', GOAL_AT_REST]


def main():
    measure_steps()
    show('rounds', ['Text', 'What it does', 'Instructions a process and a round', 'Goal'], [buffer_row(), *(row_at_rest(*case) for case in AT_REST.items())])


if __name__ == '__main__':
    main()
