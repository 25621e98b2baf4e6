#!/usr/bin/env python3
"""Tests the built program by the cases of trials/answers: texts, what cpm is asked of them, and what it has to say, worked out by hand.

    trials/answers.py [--quiet] [FILE ..]      all files, if none is named; CPM names another program than crates/cpm/out/cpm

A file has cases between lines `--`. A case is a text, and then

    $ COMMAND   what bash is given, in a folder where the text is the file t, with no line feed at its end
    | LINE      a line of the answer, be it on standard output or standard error; `|...` stands for any lines
    ! STATUS    the exit of the command, or of the first part of a pipeline that fails; without it 0
    - FIELD     what stands for {1}, {2} and so on in the commands and answers before the first case

What is asked before the first case is asked in each case that asks nothing itself; where a case has an answer alone, it is that to the first command.

Lines that begin with `# ` say what cases show. `@` in a text marks a place, and isn't part of the text. In an answer each `@` is the line and column of
the next mark, as in 1:7, and `@line`, `@column` and `@offset` tell of the mark before it, or of the first. It prints what is wrong and how much was tried, with
--quiet only what is wrong, and fails if anything is, or if less was tried than is meant to be.
"""
import concurrent.futures
import os
import pathlib
import re
import subprocess
import sys
import tempfile
from typing import NamedTuple

from running import PROGRAM, is_answer

FOLDER = pathlib.Path(__file__).resolve().parent / 'answers'
LEAST = 1_200


class Question(NamedTuple):
    command: str
    answer: list
    status: int


class Case(NamedTuple):
    place: str
    text: str
    questions: list
    fields: list


def questions_of(lines, asked=()):
    """The questions in lines that begin with `$`, `|` or `!`, or else those that are asked anyway."""
    if not lines:
        return asked
    found = [] if lines[0].startswith('$ ') else [asked[0]._replace(answer=[])]
    for line in lines:
        if line.startswith('$ '):
            found.append(Question(line[2:], [], 0))
        elif line.startswith('! '):
            found[-1] = found[-1]._replace(status=int(line[2:]))
        else:
            found[-1].answer.append(line[1:].removeprefix(' ') + '\n')
    return found


def cases_of(file):
    """The cases of a file."""
    lines = file.read_text(encoding='latin-1').split('\n')[:-1]
    ends = [number for number, line in enumerate([*lines, '--']) if line == '--']
    asked = questions_of([line for line in lines[:ends[0]] if not line.startswith('# ')])
    for start, end in zip(ends, ends[1:]):
        piece = [line for line in lines[start + 1:end] if not line.startswith('# ')]
        own = [line for line in piece if re.match(r'[$!] |\|', line)]
        fields = [line[2:] for line in piece if line.startswith('- ')]
        text = [line for line in piece if not re.match(r'[$!-] |\|', line)]
        yield Case(f'{file.name}:{start + 2}', '\n'.join(text), questions_of(own, asked), fields)


def positions_of(text):
    """The line, column and offset of each mark of a text."""
    parts = text.split('@')[:-1]
    before = [''.join(parts[:number + 1]) for number in range(len(parts))]
    return [(piece.count('\n') + 1, len(piece) - piece.rfind('\n'), len(piece)) for piece in before]


def filled(template, case):
    """What a template says of a case."""
    positions, at = positions_of(case.text), -1

    def place(found):
        nonlocal at
        at += found[1] is None
        line, column, offset = positions[max(at, 0)]
        return {'line': str(line), 'column': str(column), 'offset': str(offset)}.get(found[1], f'{line}:{column}')

    for number, field in enumerate(case.fields, 1):
        template = template.replace(f'{{{number}}}', field)
    return re.sub('@(line|column|offset)?', place, template)


def wrong_with(case, path):
    """What is wrong in the answers of a case."""
    with tempfile.TemporaryDirectory() as folder:
        (pathlib.Path(folder) / 't').write_text(case.text.replace('@', ''), encoding='latin-1', newline='')
        for question in case.questions:
            command = filled(question.command, case)
            ended = subprocess.run(['bash', '-o', 'pipefail', '-c', command], cwd=folder, stdin=subprocess.DEVNULL, stdout=subprocess.PIPE,
                                   stderr=subprocess.STDOUT, env={**os.environ, 'PATH': f"{path}:{os.environ['PATH']}"}, timeout=60)
            wanted, found = filled(''.join(question.answer), case), ended.stdout.decode('latin-1')
            if ended.returncode != question.status or not is_answer(wanted, found):
                yield f'{case.place}: {command}: exit {ended.returncode}, not {question.status}; wanted\n{wanted}found\n{found:.2000}'


def main(words):
    files = [pathlib.Path(word) for word in words if word != '--quiet'] or sorted(FOLDER.glob('*.txt'))
    cases = [case for file in files for case in cases_of(file)]
    count = sum(len(case.questions) for case in cases)
    with tempfile.TemporaryDirectory() as path, concurrent.futures.ThreadPoolExecutor() as pool:
        (pathlib.Path(path) / 'cpm').symlink_to(PROGRAM.resolve())
        wrong = [line for lines in pool.map(lambda case: list(wrong_with(case, path)), cases) for line in lines]
    if count < LEAST and not set(words) - {'--quiet'}:
        wrong.append(f'{count} questions were asked, and at least {LEAST} are meant to be')
    for line in wrong:
        print(line)
    if wrong or '--quiet' not in words:
        print(f'{count} questions on {len(cases)} texts, {len(wrong)} wrong')
    return 1 if wrong else 0


if __name__ == '__main__':
    sys.exit(main(sys.argv[1:]))
