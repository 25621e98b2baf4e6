#!/usr/bin/env python3
"""Builds cpm without proving anything, in three minutes, to try or measure a change whose proofs are still to come.

    trials/unproved.py PROGRAM [--bare]      then CPM=PROGRAM python3 trials/answers.py
    trials/unproved.py PROGRAM --tests CRATE builds the tests of a crate instead: PROGRAM MODULE::TEST runs one of them

`rt try` compiles the sources, and hands a module to clang. A copy of the kit, of links but for that clang and the prover, keeps the module and ends there. The
module is then compiled and linked as `rt run` does it. It has tests of all that is proved of a built program; --bare leaves them out, and inlines what the compiler of a proved
program inlines. So its steps take as many instructions as those of the proved program, to four in a hundred: that program keeps tests for divisors
that are 0. Times differ more, since a proved program keeps in registers much that this one copies through memory.
"""
import pathlib
import re
import shutil
import subprocess
import sys
import tempfile

ROOT = pathlib.Path(__file__).resolve().parent.parent
KIT = pathlib.Path(shutil.which('rt')).resolve().parent.parent
CLANG = KIT / 'toolchain' / 'bin' / 'clang'
# Keeps the module that it is given, and fails, so that `rt try` builds and runs nothing. Before, `rt try` gives it some small ones, with which it does what
# the kit's clang does.
KEEPER = '''#!/bin/sh
for word; do
  case "$word" in
    *.bc) cp "$word" "{module}"; [ $(stat -c %s "$word") -gt 100000 ] && exit 1 ;;
  esac
done
exec {clang} "$@"
'''
INLINED = {'always': 'alwaysinline', 'never': 'noinline'}
# What `rt` hands to clang for a proved program, besides names of files.
FLAGS = ('-march=x86-64', '-O3', '-fPIE', '-ffunction-sections', '-fdata-sections', *(word for flag in (
    '-no-trap-after-noreturn', '-trap-unreachable', '-no-x86-call-frame-opt', '-disable-machine-licm', '-disable-postra-machine-licm', '-sink-common-insts=false',
) for word in ('-mllvm', flag)))


def copy_kit(folder, module):
    """Makes a kit of links, whose clang keeps the module that it is given."""
    for part in KIT.iterdir():
        if part.name not in ('bin', 'toolchain'):
            (folder / part.name).symlink_to(part)
    for part in ('bin', 'toolchain', 'toolchain/bin'):
        (folder / part).mkdir()
        for file in (KIT / part).iterdir():
            place = folder / part / file.name
            if file.name in ('rt', 'rtlib.py'):
                # These find the kit by their own place.
                shutil.copy(file, place)
            elif file not in (CLANG, CLANG.parent, KIT / 'bin' / 'rattle'):
                place.symlink_to(file)
    scripts = {'toolchain/bin/clang': KEEPER.format(module=module, clang=CLANG), 'bin/rattle': '#!/bin/sh\nexit 1\n'}
    for place, script in scripts.items():
        (folder / place).write_text(script)
        (folder / place).chmod(0o755)


def inline_marks():
    """The functions that the sources mark to be inlined or not, by their type, or else their module, and their name."""
    marks = {}
    for file in ROOT.glob('crates/*/src/**/*.rt'):
        owner = mark = None
        for line in file.read_text().splitlines():
            block = re.match(r'impl(?:<[^>]*>)?\s+(?:[\w:<>, ]+ for )?(\w+)', line)
            found = re.match(r'\s*#\[inline\((always|never)\)\]', line)
            function = re.match(r'\s*(?:pub(?:\([a-z]+\))? )?(?:const )?fn (\w+)', line)
            owner = block[1] if block else None if line.startswith('}') else owner
            if function and mark:
                marks[owner or file.stem, function[1]] = INLINED[mark]
            mark = found[1] if found else None if function else mark
    return marks


def bare_line(line, marks):
    """A line of a module without tests, with the mark of the function that it defines."""
    name = re.match(r'define internal .*@"(cp[^"<]*)', line)
    place = name and tuple(name[1].rstrip(':').split('::')[-2:])
    mark = place and marks.get(place)
    if mark:
        line = line.replace(') #', f') {mark} #', 1)
    return line.replace(' sanitize_address', '').replace('"frame-pointer"="all"', '"frame-pointer"="none"')


def strip(module, stripped):
    """Writes a module without what ends a program where a test fails, so that clang leaves the tests out."""
    text = module.with_suffix('.ll')
    subprocess.run([CLANG, '-S', '-emit-llvm', module, '-o', text], check=True)
    marks = inline_marks()
    with open(text) as lines, open(stripped, 'w') as out:
        out.writelines(bare_line(line, marks) for line in lines if 'call void @llvm.trap()' not in line)


def main(program, *words):
    with tempfile.TemporaryDirectory() as name:
        folder = pathlib.Path(name)
        module, bare, objects = folder / 'module.bc', folder / 'bare.ll', folder / 'program.o'
        (folder / 'kit').mkdir()
        copy_kit(folder / 'kit', module)
        crate, kind = (words[words.index('--tests') + 1], ['--test']) if '--tests' in words else ('cpm', [])
        tried = subprocess.run([folder / 'kit' / 'bin' / 'rt', 'try', *kind], cwd=ROOT / 'crates' / crate, stdin=subprocess.DEVNULL, capture_output=True, text=True)
        if not module.exists() or module.stat().st_size < 100_000:
            raise SystemExit(tried.stdout + tried.stderr)
        if '--bare' in words:
            strip(module, bare)
        subprocess.run([CLANG, *FLAGS, '-c', '-x', 'ir', bare if '--bare' in words else module, '-o', objects], check=True)
        archives = [KIT / 'c' / archive for archive in ('libos_c.a', 'liblibc_c.a')]
        subprocess.run([KIT / 'bin' / 'rattle-link', '--target', 'x86_64-unknown-linux-gnu', '--toolchain', KIT / 'toolchain', '-o', program, objects, *archives], check=True)


if __name__ == '__main__':
    main(*sys.argv[1:])
