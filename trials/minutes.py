#!/usr/bin/env python3
"""minutes.py [--csv FILE] COMMAND ..: runs a command that proves crates, such as `rt ci`.

Then it prints the minutes of processor time of each crate, the most expensive first: proving and
building, tests, must-fail edits. Once a second it reads from /proc which provers run, for which
crate, and how long they have computed. `--csv docs/minutes.csv` also writes the table from which
`schedule.py` estimates: it counts lines and edits, and keeps the minutes of what wasn't proved.
The exit status is the command's.
"""
import collections
import csv
import os
import pathlib
import subprocess
import sys
import time

import schedule

TICKS = os.sysconf('SC_CLK_TCK') * 60
KINDS = ('proof', 'tests', 'edits')


def kind_of(words, folder):
    """What a prover works on: an edit on a copy of the crate, its tests, or the crate itself."""
    if '/rt-edit-' in folder:
        return 'edits'
    return 'tests' if '--test' in words else 'proof'


def read_prover(process):
    """The crate, the kind and the ticks of a prover of this session, or None for all else."""
    words = (process / 'cmdline').read_bytes().decode(errors='replace').split('\0')
    if not words[0].endswith('/rattle') or '--crate-name' not in words:
        return None
    crate = words[words.index('--crate-name') + 1]
    fields = (process / 'stat').read_text().rpartition(')')[2].split()
    if int(fields[3]) != os.getsid(0):
        return None
    ticks = int(fields[11]) + int(fields[12])
    kind = kind_of(words, os.readlink(process / 'cwd'))
    return (process.name, fields[19], crate, kind), ticks


def sample(seen):
    """Notes how long each prover has computed so far."""
    for process in pathlib.Path('/proc').glob('[0-9]*'):
        try:
            found = read_prover(process)
        except OSError:
            continue
        if found:
            key, ticks = found
            seen[key] = max(seen.get(key, 0), ticks)


def minutes_of(seen):
    """The minutes of each crate, by kind."""
    minutes = collections.defaultdict(collections.Counter)
    for (_, _, crate, kind), ticks in seen.items():
        minutes[crate][kind] += ticks / TICKS
    return minutes


def print_table(minutes):
    """Prints the minutes of each crate, the most expensive first."""
    print('minutes of processor time: proof, tests, edits')
    for crate, kinds in sorted(minutes.items(), key=lambda it: -it[1].total()):
        print(f'{crate:20}', *(f'{kinds[kind]:6.1f}' for kind in KINDS))


def count_lines(folder):
    """The number of lines of all files below a folder, which may be missing."""
    return sum(len(file.read_bytes().splitlines()) for file in folder.rglob('*') if file.is_file())


def row_of(crate, kinds, old):
    """The row of a crate: lines and edits as they are, minutes as measured or else as before."""
    folder = schedule.ROOT / 'crates' / crate
    edits = len(list((folder / 'must-fail').glob('*.edit')))
    minutes = [kinds.get(kind, before) for kind, before in zip(KINDS, old)]
    if not edits:
        minutes[-1] = 0
    counts = (sum(count_lines(folder / part) for part in ('src', 'specs')),
              count_lines(folder / 'proofs'), edits)
    return [crate, *(it or '' for it in counts),
            *(f'{it:.1f}' if it >= 0.05 else '' for it in minutes)]


def write_csv(file, minutes):
    """Writes the table of all crates, in which what wasn't measured keeps its minutes."""
    old = schedule.read_table(file) if file.exists() else {}
    before = {crate: [row[it] for it in schedule.COLUMNS[-3:]] for crate, row in old.items()}
    with file.open('w', newline='') as out:
        writer = csv.writer(out, lineterminator='\n')
        writer.writerow(schedule.COLUMNS)
        for crate in sorted(schedule.libraries()):
            kinds = minutes.get(crate, {})
            writer.writerow(row_of(crate, kinds, before.get(crate, [0, 0, 0])))


def main(words):
    file = None
    if words[:1] == ['--csv']:
        file, words = pathlib.Path(words[1]), words[2:]
    seen = {}
    with subprocess.Popen(words) as command:
        while command.poll() is None:
            sample(seen)
            time.sleep(1)
    minutes = minutes_of(seen)
    print_table(minutes)
    if file:
        write_csv(file, minutes)
    return command.returncode


if __name__ == '__main__':
    sys.exit(main(sys.argv[1:]))
