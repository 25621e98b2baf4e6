#!/usr/bin/env python3
"""Measures the plain search by calls, and `cpm search` if CPM has that command.

The script builds brute/main.rs by rustc. The programs are those of bench/spin, so that spin.py can
be compared, and two examples. The bytes of a state are all that the plain search keeps, divided by
the number of states. The least time of some trials counts.
"""
import pathlib
import subprocess
import tempfile

from measuring import CPM, ROOT, least, show

BRUTE = ROOT / 'bench' / 'brute' / 'main.rs'
PROGRAMS = [*(ROOT / 'bench' / 'spin' / f'{name}.cp' for name in ('philosophers', 'buffer', 'locks')),
         *(ROOT / 'docs' / 'examples' / f'{name}.cp' for name in ('philosophers', 'readers'))]
TRIALS = 5
STUCK = 5


def build(folder):
    brute = folder / 'brute'
    subprocess.run(['rustc', '-O', '--edition', '2021', '-o', brute, BRUTE], check=True)
    return brute


def has_search():
    """Whether cpm has the command. It exits with 2 if its arguments are wrong."""
    return CPM.exists() and subprocess.run([CPM, 'search', PROGRAMS[-1]], capture_output=True).returncode != 2


def row(brute, program, with_cpm):
    words = [brute, '--by-calls', program]
    printed = subprocess.run(words, capture_output=True, text=True, check=True).stdout
    lines = dict(line.split(' ', 1) for line in printed.splitlines())
    states, transitions = int(lines['states']), int(lines['transitions'])
    plain = least(TRIALS, words)
    bytes_a_state = int(lines['bytes']) / states
    cells = [f'{program.parent.name}/{program.stem}', f'{states:,}', f'{transitions:,}', f'{plain.seconds:.2f}', f'{plain.megabytes:.0f}', f'{bytes_a_state:.0f}']
    if with_cpm:
        status = 0 if lines['stuck'] == '0' else STUCK
        ours = least(TRIALS, [CPM, 'search', program], status=status)
        cells += [f'{ours.seconds:.2f}', f'{ours.megabytes:.0f}', f'{ours.seconds / plain.seconds:.2f}']
    return cells


def main():
    with_cpm = has_search()
    with tempfile.TemporaryDirectory() as name:
        brute = build(pathlib.Path(name))
        rows = [row(brute, program, with_cpm) for program in PROGRAMS]
    header = ['Program', 'States', 'Transitions', 'Plain, seconds', 'Megabytes', 'Bytes a state']
    show('search', header + (['cpm, seconds', 'Megabytes', 'Ratio'] if with_cpm else []), rows)


if __name__ == '__main__':
    main()
