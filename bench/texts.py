#!/usr/bin/env python3
"""Measures whole texts: seconds and memory of `cpm check FILE` and of `cpm run FILE --rounds 1`. It takes a minute."""
import itertools
import pathlib
import tempfile

from measuring import CPM, least, short_names, show

TRIALS = 3
# The exit where a rule refuses a text.
REFUSED = 1
NAMES = list(itertools.islice(short_names(), 200_000))


def records():
    names = ','.join(NAMES[:20_000])
    return 'type ' + ''.join(f'r{k}x=record {names}:char end;' for k in range(9)) + 'begin end.'


def cases():
    labels = ','.join(map(str, range(20_000)))
    return 'var x:integer;begin ' + ';'.join([f'case x of {labels}:end'] * 8) + ' end.'


def tower(k):
    """17 classes, each with two of the one below."""
    below = ['integer', *(f't{k}c{n}' for n in range(16))]
    return ''.join(f't{k}c{n}=class;var a,b:{part};begin end;' for n, part in enumerate(below))


def starting_routines():
    """20,000 routines, each with a record of 8,000 words of two start values."""
    fields = ';'.join(f'{a}:integer;{b}:s' for a, b in zip(NAMES[:4000], NAMES[4000:8000]))
    routines = ''.join(f'procedure {name};var rx:r;begin end;' for name in NAMES[8000:28_000])
    return f'type s=1..5;r=record {fields} end;{routines}begin end.'


def nested_indices():
    place = 'v[' * 190 + 'x' + ']' * 190
    return 'var v:array[1..9]of 1..9;x:1..9;begin ' + f'x:={place};' * 1700 + 'end.'


TEXTS = {
    '1,048,000 semicolons in a body': 'begin ' + ';' * 1_048_000 + 'end.',
    'a sum of 500,000 operators': 'var x:integer;begin x:=1' + '+x' * 500_000 + ' end.',
    '200,000 assignments': 'var x:integer;begin ' + 'x:=1;' * 200_000 + 'end.',
    '`init` of 500,000 items': 'type p=process;begin end;var x:p;begin init x' + ',x' * 500_000 + ' end.',
    '2,600 expressions, 190 parentheses deep': 'begin ' + (';display(' + '(' * 190 + '1' + ')' * 190 + ')') * 2600 + ' end.',
    '45,000 process types': 'type ' + ''.join(f'{name}=process;begin end;' for name in NAMES[:45_000]) + 'begin end.',
    '60,000 groups of one variable': 'var ' + ''.join(f'{name}:integer;' for name in NAMES[:60_000]) + 'begin end.',
    'an enumeration of 200,000 values': f"type e=({','.join(NAMES)});begin end.",
    '60,000 types, each named by the next': 'type ' + ''.join(f'{a}={b};' for a, b in zip(NAMES, ['integer', *NAMES[:59_999]])) + 'begin end.',
    '40,000 routines': ''.join(f'procedure {name};begin end;' for name in NAMES[:40_000]) + 'begin end.',
    'nine records of 20,000 fields': records(),
    'eight `case` statements of 20,000 labels': cases(),
    '1,500 towers of 17 classes, each with two of the one below': 'type ' + ''.join(map(tower, range(1500))) + 'begin end.',
    '20,000 routines, each with a record of 8,000 words of two start values': starting_routines(),
    '1,700 assignments with indices in indices, 190 deep': nested_indices(),
}
# These are refused.
TOO_MANY_WORDS = {
    '200,000 variables': f"var {','.join(NAMES)}:integer;begin end.",
    '600 arrays of 199 dimensions': 'type ' + ''.join(f"a{k}x=array[{','.join(['boolean'] * 199)}]of char;" for k in range(600)) + 'begin end.',
}


def row(file, what, text, status):
    file.write_text(text)
    checked = least(TRIALS, [CPM, 'check', file], status=status)
    ran = least(TRIALS, [CPM, 'run', file, '--rounds', 1], status=status)
    cells = [cell for took in (checked, ran) for cell in (f'{took.seconds:.2f}', f'{took.megabytes:.0f} MB')]
    return [what, f'{len(text):,}', *cells]


def main():
    with tempfile.TemporaryDirectory() as folder:
        file = pathlib.Path(folder) / 'text.cp'
        rows = [row(file, what, text, 0) for what, text in TEXTS.items()]
        rows += [row(file, f'{what} (refused: too many words)', text, REFUSED) for what, text in TOO_MANY_WORDS.items()]
    show('whole texts', ['Text', 'Bytes', 'Check, seconds', 'Memory', 'Run, seconds', 'Memory'], rows)


if __name__ == '__main__':
    main()
