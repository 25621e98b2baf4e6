#!/usr/bin/env python3
"""slowest.py CRATE [COUNT]: prints which functions of a crate took the prover longest, in wall-clock seconds, and the megabytes that it keeps of their steps.

It reads the kept work of a first check by one job (`rt check --jobs 1`): each module is written once it is checked, so the time between
two files is that of the second. A check that was stopped for a while, or begun again, shows as a gap that is no function's. What is kept of the steps of
a function, its module `Lts`, grows with how much is alive at how many places, and takes half of the time; its size doesn't depend on the machine's load.
"""
import collections
import pathlib
import re
import sys

ROOT = pathlib.Path(__file__).resolve().parent.parent
MODULE = re.compile(r'Rattle-\w+-(?:proofs|specs)\.(.+)\.oantt$')


def function_of(file):
    """The function whose module a file holds, or the file's name if it holds none."""
    module = MODULE.match(file.name)
    return module[1].rpartition('.')[0] or module[1] if module else file.name


def costs_by_function(kept):
    """The seconds before each file of kept work, and the bytes of steps, summed by function."""
    files = sorted((file.stat().st_mtime, file) for file in kept.rglob('*.oantt') if file.parent.name != 'records')
    seconds, steps = collections.Counter(), collections.Counter()
    for (before, _), (after, file) in zip(files, files[1:]):
        seconds[function_of(file)] += after - before
        if file.name.endswith('.Lts.oantt'):
            steps[function_of(file)] += file.stat().st_size
    return seconds, steps


def main(crate, count=12):
    seconds, steps = costs_by_function(ROOT / 'crates' / crate / 'out' / 'incremental')
    for function, taken in seconds.most_common(int(count)):
        print(f'{taken:7.1f} {steps[function] / 1e6:6.1f}  {function}')


if __name__ == '__main__':
    main(*sys.argv[1:])
