"""What the measuring scripts share: the programs, names for texts, what a call takes, and the tables of docs/PERFORMANCE.md.

`bash .ci/run` leaves the program that is measured in crates/cpm/out; CPM names another.
"""
import itertools
import os
import pathlib
import re
import string
import subprocess
import sys
import tempfile
from typing import NamedTuple

ROOT = pathlib.Path(__file__).resolve().parent.parent
CPM = pathlib.Path(os.environ.get('CPM', ROOT / 'crates' / 'cpm' / 'out' / 'cpm'))
PAGE = ROOT / 'docs' / 'PERFORMANCE.md'

# Calls a program from a small process, and writes what it took to the file descriptor that the first argument names. Linux counts the
# memory of whoever calls as the program's, and a script that holds texts of a megabyte takes more than most runs do.
LAUNCHER = '''
import os, sys, time
began = time.perf_counter()
_, status, usage = os.wait4(os.spawnv(os.P_NOWAIT, sys.argv[2], sys.argv[2:]), 0)
took = time.perf_counter() - began
told = [os.waitstatus_to_exitcode(status), took, usage.ru_utime, usage.ru_stime, usage.ru_maxrss / 1024]
os.write(int(sys.argv[1]), ' '.join(map(str, told)).encode())
'''


class Usage(NamedTuple):
    """What a call took: wall-clock seconds, of the program on a processor and of the system on its behalf, and the most memory."""
    seconds: float
    processor: float
    system: float
    megabytes: float


def call(words, text=b'', status=0, ending=b''):
    """Calls a program with a text as its input. It has to end with this status, and what it prints with these bytes."""
    reader, writer = os.pipe()
    launcher = [sys.executable, '-S', '-E', '-c', LAUNCHER, str(writer), *map(str, words)]
    with tempfile.TemporaryFile() as stdin, tempfile.TemporaryFile() as stdout:
        stdin.write(text)
        stdin.seek(0)
        subprocess.run(launcher, stdin=stdin, stdout=stdout if ending else subprocess.DEVNULL, stderr=subprocess.DEVNULL, pass_fds=[writer], check=True)
        stdout.seek(0)
        is_right = stdout.read().endswith(ending)
    os.close(writer)
    with open(reader, encoding='ascii') as told:
        ended, *usage = told.read().split()
    if int(ended) != status or not is_right:
        raise SystemExit(f'{words} ended with {ended}' + ('' if is_right else ', and printed something else'))
    return Usage(*map(float, usage))


def least(trials, *words, **how):
    """The least that a call takes in some trials, of each kind."""
    return Usage(*map(min, zip(*(call(*words, **how) for _ in range(trials)))))


def instructions(words, status=0, within=None):
    """The instructions that a program takes, which has to end with this status, and what it prints. With the name of a function, as `nm` prints it, only
    those of its calls and of what it calls."""
    command = ['valgrind', '--tool=callgrind', '--callgrind-out-file=/dev/null', *([f'--toggle-collect={within}'] if within else []), *map(str, words)]
    run = subprocess.run(command, capture_output=True, text=True)
    if run.returncode != status:
        raise SystemExit(f'{words} ended with {run.returncode}')
    count = int(re.search(r'Collected : (\d+)', run.stderr)[1])
    if not count:
        raise SystemExit(f'{words[0]} has no function {within}')
    return count, run.stdout


def short_names():
    """Short names with a digit in each, so that none is a reserved or a standard one."""
    for length in itertools.count(2):
        for parts in itertools.product(string.ascii_lowercase, *[string.digits + string.ascii_lowercase] * (length - 1)):
            word = ''.join(parts)
            if any(letter.isdigit() for letter in word):
                yield word


def show(name, header, rows):
    """Prints a table. With the argument --write it also replaces the one after the comment of this name in docs/PERFORMANCE.md."""
    lines = [f"| {' | '.join(map(str, cells))} |" for cells in (header, *rows)]
    lines.insert(1, '|---' * len(header) + '|')
    table = '\n'.join(lines) + '\n'
    print(f'{name}\n\n{table}')
    if '--write' in sys.argv[1:]:
        page, times = re.subn(rf'(<!-- {re.escape(name)} -->\n)(\|.*\n)*', lambda found: found[1] + table, PAGE.read_text())
        if times != 1:
            raise SystemExit(f'{PAGE} has {times} tables named {name}')
        PAGE.write_text(page)
