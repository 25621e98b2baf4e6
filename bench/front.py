#!/usr/bin/env python3
"""Measures `cpm check` beside a plain front end: instructions and seconds for each text of texts.py.

The script builds plain_front/main.rs itself, by rustc. First both programs judge all texts that the repository has, and those of texts.py, and have
to say the same of each. It fails if names that would collide under a hasher without a key take over a tenth more instructions than other names. Instructions are those of the whole process under `valgrind --tool=callgrind`, so they don't depend on the load of the
machine; seconds are the least of some trials, on one processor, of the program itself and of the system on its behalf. With `--answers N` it measures
nothing, and compares N more texts, each made of one that the repository has by leaving out, doubling or exchanging a few words. It takes eight minutes.
"""
import concurrent.futures
import os
import pathlib
import random
import re
import subprocess
import sys
import tempfile

from measuring import CPM, ROOT, call, instructions, show
from texts import REFUSED, TEXTS, TOO_MANY_WORDS

sys.path += [str(ROOT / 'worked'), str(ROOT / 'trials')]
import answers
import make_rows

PLAIN = ROOT / 'bench' / 'plain_front' / 'main.rs'
COLLIDING = ROOT / 'bench' / 'colliding.rs'
TRIALS = 40
LIMIT = 1_048_576
# What a text is cut into to make others of it.
PIECES = re.compile(r'''\w+|'[^']*'|"[^"]*"|:=|\.\.|<>|\s+|.''', re.DOTALL)


def build(folder, source):
    """Builds a program in a folder: the plain front end, or the maker of names that collide."""
    program = folder / source.parent.stem / source.stem
    program.parent.mkdir(exist_ok=True)
    subprocess.run(['rustc', '-O', '--edition', '2021', '-o', program, source], check=True)
    return program


def text_of(names):
    """A text that declares each of these names as a field and as a variable, and uses the variable once."""
    list_of_names = ','.join(names)
    return f"type r=record {list_of_names}:char end;var {list_of_names}:integer;begin {';'.join(f'{name}:=1' for name in names)} end."


def texts_of_names(folder):
    """A text with names that would collide under a hasher without a key, and one with as many other names of their length."""
    colliding = subprocess.run([build(folder, COLLIDING)], capture_output=True, text=True, check=True).stdout.split()
    others = [f'x{number:07x}' for number in range(len(colliding))]
    return {f'{len(names):,} names{what}': text_of(names) for what, names in ((' that would collide without a key', colliding), ('', others))}


def compare_names(folder, texts):
    """Fails if names that would collide under a hasher without a key take over a tenth more instructions than others."""
    counts = []
    for text in texts:
        file = folder / 'names.cp'
        file.write_text(text)
        counts.append(instructions([CPM, 'check', file])[0])
    colliding, others = counts
    print(f'names that would collide without a key take {colliding / others:.3f} of the instructions of others')
    if others * 1.1 < colliding:
        raise SystemExit('a text can be written whose names collide')


def texts_of_repository():
    """Worked texts, examples, what the trials ask about, and texts at the limits of length, words, numbers and nesting."""
    worked = (case[0] for path in sorted((ROOT / 'worked').glob('*/*.txt')) for case in make_rows.cases_of(path))
    examples = (path.read_text(encoding='latin-1') for path in sorted((ROOT / 'docs').rglob('*.cp')))
    asked = (case.text.replace('@', '') for path in sorted(answers.FOLDER.glob('*.txt')) for case in answers.cases_of(path))
    deep = (f"begin {'if true then ' * count}display({'(' * more}1{')' * more}) end." for count in (197, 198, 199, 200) for more in (0, 1, 2, 3))
    edges = ('', 'begin end.' + ' ' * (LIMIT - 10), ' ' * (LIMIT + 1), f"begin {'a' * 64} end.", f"begin {'a' * 65} end.", 'begin display(0032768) end.')
    return list(dict.fromkeys([*worked, *examples, *asked, *deep, *edges]))


def changed(text, chance):
    """A text with a few words left out, doubled or exchanged."""
    pieces = PIECES.findall(text)
    for _ in range(chance.randint(1, 3)):
        at, other = chance.randrange(len(pieces)), chance.randrange(len(pieces))
        pieces[at] = chance.choice(['', pieces[at] * 2, pieces[other], pieces[other]])
    return ''.join(pieces)


def answer(program, text):
    """What a program says of a text: its answer and its exit."""
    with tempfile.NamedTemporaryFile() as file:
        file.write(text.encode('latin-1'))
        file.flush()
        words = [program, 'check', file.name] if program == CPM else [program, file.name]
        ended = subprocess.run(words, capture_output=True)
    return ended.returncode, ended.stdout + ended.stderr


def compare(plain, texts):
    """Fails if the two programs differ about a text."""
    with concurrent.futures.ThreadPoolExecutor(2) as pool:
        pairs = zip(texts, pool.map(lambda text: (answer(CPM, text), answer(plain, text)), texts))
        wrong = [(text, ours, other) for text, (ours, other) in pairs if ours != other]
    for text, ours, other in wrong[:20]:
        print(f'cpm: {ours}, plain: {other}\n{text:.1500}\n--')
    if wrong:
        raise SystemExit(f'{len(wrong)} of {len(texts)} texts are judged in two ways')
    print(f'both say the same of {len(texts)} texts')


def seconds(words, status):
    """The seconds of a processor that a call takes."""
    usage = call(words, status=status)
    return usage.processor + usage.system


def row(plain, folder, what, text, status):
    file = folder / 'text.cp'
    file.write_text(text)
    programs = [CPM, 'check', file], [plain, file]
    ours, other = (instructions(words, status)[0] for words in programs)
    # In turn, so that both meet the same load of a shared machine.
    trials = [[seconds(words, status) for words in programs] for _ in range(TRIALS)]
    spent = [min(times) for times in zip(*trials)]
    cells = f'{ours / 1e6:.0f}', f'{other / 1e6:.0f}', f'{ours / other:.2f}', *(f'{seconds:.3f}' for seconds in spent), f'{spent[0] / spent[1]:.2f}'
    print(' | '.join([what, *cells]), flush=True)
    return [what, *cells]


def main():
    with tempfile.TemporaryDirectory() as name:
        folder = pathlib.Path(name)
        plain = build(folder, PLAIN)
        texts = texts_of_repository()
        if '--answers' in sys.argv[1:]:
            number = int(sys.argv[sys.argv.index('--answers') + 1])
            chance = random.Random(number)
            small = [text for text in texts if 0 < len(text) < 20_000]
            compare(plain, [changed(chance.choice(small), chance) for _ in range(number)])
            return
        names = texts_of_names(folder)
        compare(plain, [*texts, *TEXTS.values(), *TOO_MANY_WORDS.values(), *names.values()])
        compare_names(folder, names.values())
        # Both on one processor, since two of a shared machine may run at two speeds.
        os.sched_setaffinity(0, {max(os.sched_getaffinity(0))})
        rows = [row(plain, folder, what, text, 0) for what, text in (TEXTS | names).items()]
        rows += [row(plain, folder, f'{what} (refused)', text, REFUSED) for what, text in TOO_MANY_WORDS.items()]
    header = ['Text', 'cpm, million instructions', 'Plain', 'Ratio', 'cpm, seconds', 'Plain', 'Ratio']
    show('front', header, rows)


if __name__ == '__main__':
    main()
