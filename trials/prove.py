#!/usr/bin/env python3
"""Proves cpm and every crate below it, and builds it: CI without tests, must-fail edits and trials.

It copies the crates to a temporary folder, without their edits, where `rt ci` proves them, and puts
the program into crates/cpm/out. A kit that keeps what passed shares these proofs with CI. The exit
status is that of `rt ci`.
"""
import pathlib
import shutil
import subprocess
import sys
import tempfile

import schedule

ROOT = schedule.ROOT
PROGRAM = 'cpm'


def copy_crates(folder, names):
    """Makes a repository of these crates alone, without edits."""
    lines = (ROOT / 'crates.txt').read_text().splitlines(keepends=True)
    (folder / 'crates.txt').write_text(''.join(line for line in lines if line.partition(':')[0] in names))
    shutil.copy(ROOT / 'HANDLES', folder)
    for name in names:
        shutil.copytree(ROOT / 'crates' / name, folder / 'crates' / name, ignore=shutil.ignore_patterns('out', 'must-fail'))


def main():
    with tempfile.TemporaryDirectory() as name:
        folder = pathlib.Path(name)
        copy_crates(folder, schedule.crates_of(PROGRAM, schedule.libraries()))
        status = subprocess.run(['rt', 'ci'], cwd=folder).returncode
        if status == 0:
            built = ROOT / 'crates' / PROGRAM / 'out'
            built.mkdir(exist_ok=True)
            shutil.copy(folder / 'crates' / PROGRAM / 'out' / PROGRAM, built)
    return status


if __name__ == '__main__':
    sys.exit(main())
