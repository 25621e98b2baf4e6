#!/usr/bin/env python3
"""Measures long traces, and outcomes with a high limit: seconds and memory. It takes some minutes."""
import pathlib
import tempfile

from measuring import CPM, ROOT, call, show

EXAMPLES = ROOT / 'docs' / 'examples'
FORMS = {'lines': [], '`--json`': ['--json'], '`--timeline`': ['--timeline'], '`--svg`': ['--svg']}
ROUNDS = 1_000, 100_000
PLAN = ['--turn', 5, '--workers', 1]
# The initial process ends soon, and ten others call one monitor forever.
CALLING = '''type counter = monitor; var n: integer;
  procedure entry add(k: integer); begin n := (n + k) mod 1000 end; begin n := 0 end;
caller = process(c: counter; k: integer); var x: integer; begin cycle c.add(k); x := (x + 1) mod 100 end end;
var c: counter; ''' + ', '.join(f'p{k}' for k in range(10)) + ''': caller;
begin init c, ''' + ', '.join(f'p{k}(c, {k})' for k in range(10)) + ' end.'
# Examples that are soon still, and the exit of their outcome.
STILL = {'seven': 0, 'sieve': 5, 'squarers': 6}


def row(name, words):
    few, many = (call([*words, '--rounds', rounds, *PLAN]) for rounds in ROUNDS)
    return [name, f'{few.seconds:.2f}', f'{many.seconds:.2f}', f'{few.megabytes:.0f} MB', f'{many.megabytes:.0f} MB']


def measure_traces():
    with tempfile.TemporaryDirectory() as folder:
        text = pathlib.Path(folder) / 'calling.cp'
        text.write_text(CALLING)
        rows = [row(name, [CPM, 'trace', text, *form]) for name, form in FORMS.items()]
        rows.append(row('`cpm run`', [CPM, 'run', text]))
    few, many = (f'{rounds:,} rounds' for rounds in ROUNDS)
    show('traces', ['Form', f'{few}, seconds', f'{many}, seconds', f'{few}, memory', f'{many}, memory'], rows)


def measure_outcomes():
    rows = []
    for example, status in STILL.items():
        took = call([CPM, 'outcome', EXAMPLES / f'{example}.cp', '--limit', 1_000_000], status=status)
        rows.append([f'`{example}.cp`', f'{took.seconds:.2f}', f'{took.megabytes:.0f} MB'])
    show('outcomes', ['Example', 'Seconds', 'Memory'], rows)


if __name__ == '__main__':
    measure_traces()
    measure_outcomes()
