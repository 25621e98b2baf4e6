#!/usr/bin/env python3
"""Checks that a command scans, parses and judges its text once, whatever names it is given: instructions of `cpm outcome` on a text of 359 KB, alone
and with names of processes. With names it may take three in a hundred more. It takes a minute."""
import pathlib
import tempfile

from measuring import CPM, instructions

BYTES = 359_000
# How much more instructions a command may take with names.
MOST = 1.03
TEXT = '''type p = process; var n: integer; begin n := 1; display(n) end;
var a: p;
begin
  init a;
  {statements}
end.
'''
WAYS = {
    'alone': [],
    '--out a': ['--out', 'a'],
    '--in a=FILE': ['--in', 'a={input}'],
    '--out a --in a=FILE': ['--out', 'a', '--in', 'a={input}'],
    '--servers a --show a.n': ['--servers', 'a', '--show', 'a.n'],
}


def text():
    """A text of about that many bytes, of statements that a run makes once."""
    statement = 'if 1 = 2 then display(3);\n  '
    return TEXT.format(statements=statement * ((BYTES - len(TEXT)) // len(statement)))


def main():
    with tempfile.TemporaryDirectory() as folder:
        file, given = pathlib.Path(folder, 'text.cp'), pathlib.Path(folder, 'input')
        file.write_text(text())
        given.write_text('12')
        counts = {}
        for way, words in WAYS.items():
            counts[way] = instructions([CPM, 'outcome', file, *(word.format(input=given) for word in words)])[0]
            print(f'{counts[way] / 1e6:8.1f} million instructions, {counts[way] / counts["alone"]:.3f}: {way}')
        if max(counts.values()) > MOST * counts['alone']:
            raise SystemExit('names cost another reading of the text')


if __name__ == '__main__':
    main()
