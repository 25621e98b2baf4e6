#!/usr/bin/env python3
"""Measures the compiler: instructions a byte on texts of 256 KiB and 1 MiB, with the tables that it makes of them, and the memory of the whole program. It
takes some minutes."""
import pathlib
import tempfile

from measuring import CPM, call, instructions, short_names, show

KIB = 1024
SIZES = [256 * KIB, 1024 * KIB]


def repeated(head, piece, tail):
    """A text that repeats a piece as often as fits."""
    return lambda size: head + piece * ((size - len(head) - len(tail)) // len(piece)) + tail


def named(head, piece, tail):
    """A text that repeats a piece with a new name each time."""
    def text(size):
        parts, left = [], size - len(head) - len(tail)
        for name in short_names():
            part = piece.replace('NAME', name)
            if len(part) > left:
                return head + ''.join(parts) + tail
            parts.append(part)
            left -= len(part)
    return text


TEXTS = {
    'assignments': repeated('var x:integer;begin ', 'x:=(x+1)mod 300;', 'end.'),
    'one sum': repeated('var x:integer;begin x:=1', '+x*2', ' end.'),
    'places of arrays': repeated('var v:array[1..9,1..9]of integer;i:integer;begin ', 'v[i,v[1,i]]:=v[i,2];', 'end.'),
    'cases': repeated('var x:integer;begin ', 'case x of 1:x:=2;2,3:x:=1;900:x:=x end;', 'end.'),
    'loops': repeated('var i,j:integer;begin ', 'for i:=1 to 9 do while j<i do j:=j+1;', 'end.'),
    'routines': named('', 'procedure NAME(x:integer);var y:integer;begin y:=x end;', 'begin end.'),
    'calls of functions': repeated('var x:integer;function f(y:integer):integer;begin f:=y end;begin ', 'x:=f(x)+f(f(1));', 'end.'),
    'process types': named('type ', 'NAME=process;var x:integer;begin x:=1 end;', 'begin end.'),
    'record types': named('type ', 'NAME=record a,b:integer;c:char end;', 'begin end.'),
    'init items': repeated('type p=process;begin end;var x:p;begin init x', ',x', ' end.'),
}


def measure(file, text):
    """Instructions a byte of the compiler, and the megabytes that the whole program takes."""
    file.write_text(text)
    words = [CPM, 'run', file, '--rounds', 0]
    count, _ = instructions(words, within='cp_check::checking::compile_accepted')
    return count / len(text), call(words).megabytes


def main():
    rows = []
    with tempfile.TemporaryDirectory() as folder:
        for name, make in TEXTS.items():
            found = [measure(pathlib.Path(folder, 'text.cp'), make(size)) for size in SIZES]
            rows.append([name, *(f'{count:.0f}' for count, _ in found), f'{found[-1][1]:.0f}'])
    show('the compiler', ['Text of', *(f'{size // KIB} KiB' for size in SIZES), 'MB at 1 MiB'], rows)


if __name__ == '__main__':
    main()
