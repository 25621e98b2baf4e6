#!/usr/bin/env python3
"""Runs Spin's exhaustive search on models of the programs in bench/spin.

It needs Spin and a C compiler: `apt-get install spin gcc` on Debian. Each model does what the
program of the same name does, with the gates and queues of monitors. Spin uses partial-order
reduction, which is its default. With `--collapse` it also stores the parts of a state separately.
Spin's invalid end states are those in which the program is stuck.
"""
import pathlib
import re
import shutil
import subprocess
import sys
import tempfile

from measuring import ROOT, least, show

MODELS = ROOT / 'bench' / 'spin'
NAMES = ('philosophers', 'buffer', 'locks')
TRIALS = 3
# A depth that no path of these models reaches.
DEPTH = '-m1000000'
FLAGS = ['-O2', '-DSAFETY', '-w']
NEEDED = {'spin': 'spin', 'gcc': 'gcc'}


def expect_tools():
    """Ends the script if a tool is missing, and says which package has it."""
    missing = [package for tool, package in NEEDED.items() if not shutil.which(tool)]
    if missing:
        raise SystemExit(f"this needs {' and '.join(missing)}: apt-get install {' '.join(missing)}")


def build(name, folder, flags):
    """Builds Spin's verifier of a model."""
    subprocess.run(['spin', '-a', MODELS / f'{name}.pml'], cwd=folder, check=True, stdout=subprocess.DEVNULL)
    verifier = folder / name
    subprocess.run(['gcc', *FLAGS, *flags, '-o', verifier, 'pan.c'], cwd=folder, check=True)
    return verifier


def counted(what, text):
    """A number that the verifier prints before these words."""
    return int(float(re.search(rf'([\d.e+]+) {re.escape(what)}', text)[1]))


def row(name, folder, flags):
    verifier = build(name, folder, flags)
    # -E makes the search pass over invalid end states, so that all states are counted.
    whole = [verifier, DEPTH, '-E']
    printed = subprocess.run(whole, cwd=folder, capture_output=True, text=True, check=True).stdout
    first = subprocess.run([verifier, DEPTH], cwd=folder, capture_output=True, text=True, check=True).stdout
    usage = least(TRIALS, whole)
    states, transitions = counted('states, stored', printed), counted('transitions', printed)
    size = re.search(r'State-vector (\d+) byte', printed)[1]
    verdict = 'can get stuck' if 'invalid end state (' in first else 'never gets stuck'
    return [name, verdict, f'{states:,}', f'{transitions:,}', f'{usage.seconds:.2f}', f'{usage.megabytes:.0f}', size]


def main():
    expect_tools()
    flags = ['-DCOLLAPSE'] if '--collapse' in sys.argv[1:] else []
    with tempfile.TemporaryDirectory() as name:
        rows = [row(model, pathlib.Path(name), flags) for model in NAMES]
    show('spin', ['Model', 'Verdict', 'States', 'Transitions', 'Seconds', 'Megabytes', 'Bytes of a state'], rows)


if __name__ == '__main__':
    main()
