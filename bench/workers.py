#!/usr/bin/env python3
"""Measures rounds by workers: private steps a second, and what workers cost where there is nothing to share.

Let nothing else run meanwhile. The least time of some trials counts, each of which runs every case once, so that all meet the same
machine. It takes three minutes.
"""
import pathlib
import subprocess
import tempfile
import time

from measuring import CPM, show

TRIALS = 9
# An idle run is so short that chance takes most of it: of nine trials, four workers took up to twice as long as one.
IDLE_TRIALS = 25
WORKERS = 1, 2, 4
PROCESSES = 253
COUNTING = 'var x: integer; begin cycle x := (x + 1) mod 30000 end end'
# The turn, the number of rounds, and the chunk. By four workers a run takes a third of a second, so that the 4 milliseconds in which the program starts
# and writes its report weigh little.
TURNS = [(10_000, 120, 1), (100, 8_000, 1), (100, 8_000, 16)]
IDLE_ROUNDS = 20_000


def counting_text():
    names = ', '.join(f'v{k}' for k in range(PROCESSES))
    return f'type p = process; {COUNTING}; var {names}: p; begin init {names} end.'


def ended_text():
    names = ', '.join(f'v{k}' for k in range(PROCESSES))
    return f'type p = process; begin end; var {names}: p; begin init {names} end.'


def command(text, rounds, turn, workers, chunk=1):
    numbers = {'--rounds': rounds, '--turn': turn, '--workers': workers, '--chunk': chunk}
    return [CPM, 'run', text, *(word for name, number in numbers.items() for word in (name, str(number)))]


def seconds(words, copies=1):
    """How long this many runs take side by side."""
    began = time.perf_counter()
    runs = [subprocess.Popen(words, stdout=subprocess.DEVNULL) for _ in range(copies)]
    for run in runs:
        if run.wait() != 0:
            raise SystemExit(f'{words} failed')
    return time.perf_counter() - began


def best(cases, count=TRIALS):
    """The least time of each case. Each trial runs all of them, so that they meet the same load."""
    trials = [{name: seconds(words, copies) for name, (words, copies) in cases.items()} for _ in range(count)]
    return {name: min(trial[name] for trial in trials) for name in cases}


def turns_row(text, turn, rounds, chunk):
    """Millions of private steps a second by workers, and the parts that these are of as many programs of one worker side by side."""
    cases = {workers: (command(text, rounds, turn, workers, chunk), 1) for workers in WORKERS}
    apart = {f'{copies} programs': (command(text, rounds, turn, 1), copies) for copies in WORKERS[1:]}
    times = best({**cases, **apart})
    steps = PROCESSES * turn * rounds / 1e6
    speeds = [f'{steps / times[workers]:.0f}' for workers in WORKERS]
    parts = [f"{times[f'{workers} programs'] / times[workers] / workers:.2f}" for workers in WORKERS[1:]]
    return [f'{turn:,} steps', chunk, *speeds, *parts]


def measure_turns(text):
    header = ['Turn', 'Chunk', '1 worker', '2 workers', '4 workers', '2 workers against 2 programs', '4 against 4']
    show('rounds by workers', header, [turns_row(text, *case) for case in TURNS])


def measure_idle_rounds(text):
    times = best({workers: (command(text, IDLE_ROUNDS, 100, workers), 1) for workers in WORKERS}, IDLE_TRIALS)
    row = [f'{times[workers] / IDLE_ROUNDS * 1e6:.2f}' for workers in WORKERS]
    show('idle rounds', ['Microseconds a round', '1 worker', '2 workers', '4 workers'], [['of 254 processes that have ended', *row]])


def main():
    with tempfile.TemporaryDirectory() as folder:
        counting, ended = pathlib.Path(folder) / 'counting.cp', pathlib.Path(folder) / 'ended.cp'
        counting.write_text(counting_text())
        ended.write_text(ended_text())
        measure_turns(counting)
        measure_idle_rounds(ended)


if __name__ == '__main__':
    main()
