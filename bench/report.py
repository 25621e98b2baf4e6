#!/usr/bin/env python3
"""Measures a report of 2,530,000 lines: how fast it is made and written, and how much memory that takes.

Each of 253 processes has an array of 10,000 words. An outcome of the same text makes the same rounds and no report, so the
difference between the two in time is the report's. The memory is that of the whole run.
"""
import pathlib
import subprocess
import tempfile

from measuring import CPM, least, show

TRIALS = 5
NAMES = ', '.join(f'v{k}' for k in range(253))
TEXT = f'''type p = process; var a: array [1..10000] of integer; i: integer;
begin for i := 1 to 10000 do a[i] := 3 * i end;
var {NAMES}: p; begin init {NAMES} end.'''
PLAN = ['--turn', 10_000, '--workers', 1]


def main():
    with tempfile.TemporaryDirectory() as folder:
        text = pathlib.Path(folder) / 'arrays.cp'
        text.write_text(TEXT)
        run = [CPM, 'run', text, '--rounds', 10, *PLAN]
        report = subprocess.run(list(map(str, run)), capture_output=True, check=True).stdout
        with_report = least(TRIALS, run)
        without = least(TRIALS, [CPM, 'outcome', text, '--limit', 10, *PLAN])
    length = len(report) / 1e6
    lines = report.count(b'\n')
    speed = length / (with_report.seconds - without.seconds)
    show('reports', ['Lines', 'Length', 'MB a second', 'Memory of the run', 'Times its length'],
         [[f'{lines:,}', f'{length:.1f} MB', f'{speed:.0f}', f'{with_report.megabytes:.0f} MB', f'{with_report.megabytes / length:.2f}']])


if __name__ == '__main__':
    main()
