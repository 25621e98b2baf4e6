#!/usr/bin/env python3
"""Measures extreme texts: seconds and memory of `cpm run` with deep calls, large arrays and many dimensions. Each should take less than a second."""
import itertools
import pathlib
import tempfile

from measuring import CPM, least, short_names, show

TRIALS = 3
TURN = 10_000


def names(count):
    return list(itertools.islice(short_names(), count))


def chain(count):
    """Routines of which each calls the one before it; the last one is called forever."""
    called = names(count)
    later = ''.join(f'procedure {name};begin {before} end;' for before, name in zip(called, called[1:]))
    return f'procedure {called[0]};begin end;{later}begin cycle {called[-1]} end end.'


def functions(count):
    """Functions that pass a value through each other."""
    called = names(count)
    first = f'function {called[0]}(n:integer):integer;begin {called[0]}:=n end;'
    later = ''.join(f'function {name}(n:integer):integer;begin {name}:={before}(n) end;' for before, name in zip(called, called[1:]))
    return f'var x:integer;{first}{later}begin cycle x:={called[-1]}(1) end end.'


def copies(words):
    """Two arrays that fill an owner; one is copied to the other again and again."""
    return f'type t=array[1..{words}]of integer;var a,b:t;begin cycle a:=b end end.'


def shifted_copies(words):
    """Two halves of one array."""
    return f'type t=array[1..{words}]of integer;var v:array[1..2]of t;begin cycle v[1]:=v[2] end end.'


def nested_dimensions(count):
    """An array of arrays of arrays, of one element each."""
    place = 'v' + '[1]' * count
    return f"var v:{'array[1..1]of ' * count}integer;begin cycle {place}:=({place}+1)mod 300 end end."


def listed_dimensions(count):
    """The same in one list of index types."""
    place = 'v[' + ','.join(['1'] * count) + ']'
    return f"var v:array[{','.join(['1..1'] * count)}]of integer;begin cycle {place}:=({place}+1)mod 300 end end."


# The text and the number of rounds. An owner has at most 65,536 words, and a process has one in front of its variables.
CASES = {
    '20,000 routines, each of which calls the one before': (chain(20_000), 4),
    '35,000 routines, as deep as a text can have': (chain(35_000), 8),
    '15,000 functions, each with the value of the one before': (functions(15_000), 4),
    '5,000 copies of an array of 32,767 words': (copies(32_767), 1),
    '5,000 copies of half of an array of 65,534 words': (shifted_copies(32_767), 1),
    '199 arrays in one another': (nested_dimensions(199), 1),
    '20,000 dimensions in a list; each assignment evaluates 40,000 indices': (listed_dimensions(20_000), 1),
}


def main():
    rows = []
    with tempfile.TemporaryDirectory() as folder:
        file = pathlib.Path(folder) / 'text.cp'
        for what, (text, rounds) in CASES.items():
            file.write_text(text)
            took = least(TRIALS, [CPM, 'run', file, '--rounds', rounds, '--turn', TURN, '--workers', 1])
            rows.append([what, f'{len(text):,}', rounds, f'{took.seconds:.1f}', f'{took.megabytes:.0f} MB'])
    show('extreme texts', ['Text', 'Bytes', 'Rounds', 'Seconds', 'Memory'], rows)


if __name__ == '__main__':
    main()
