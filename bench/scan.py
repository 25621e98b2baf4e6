#!/usr/bin/env python3
"""Measures the scanner: instructions a byte on texts of words, numbers, comments, marks and more, of 64 KiB and 1 MiB. It takes half a minute."""
import pathlib
import tempfile

from measuring import CPM, instructions, show

KIB = 1024
SIZES = [64 * KIB, 1024 * KIB]

# What each text repeats.
PIECES = {
    'names': b'buffer empty Index_2 i sender message x9 tail ',
    'reserved words': b'begin procedure while until then do end entry with ',
    'numbers': b'0 7 42 32767 00012 1976 255 ',
    'character constants': b"'a' '(:10:)' 'x' '(:039:)' ",
    'comments': b'"a comment of some words" "" "another one" ',
    'marks': b':=<><=>=()[](..),;:...+-*&=',
    'blanks': b' ',
    'a program': b'procedure entry send(c: char); begin if full then delay(sender); buffer[tail] := c; tail := tail + 1; "put" end; ',
}


def texts(size):
    """A text of each kind of this size; tokens spell each of them."""
    for name, piece in PIECES.items():
        text = piece * (size // len(piece))
        yield name, text + b' ' * (size - len(text))
    yield 'one comment', b'"' + b'x' * (size - 2) + b'"'
    yield 'one number', b'0' * size


def instructions_a_byte(folder, text):
    """Of the scanner, in a `check` of the text, which is then refused: none of these texts is a program."""
    file = folder / 'text.cp'
    file.write_bytes(text)
    count, _ = instructions([CPM, 'check', file], status=1, within='cp_scan::scanning::scan')
    return count / len(text)


def main():
    rows = {}
    with tempfile.TemporaryDirectory() as name:
        for size in SIZES:
            for kind, text in texts(size):
                rows.setdefault(kind, []).append(f'{instructions_a_byte(pathlib.Path(name), text):.1f}')
    show('the scanner', ['Text of', *(f'{size // KIB} KiB' for size in SIZES)], [[kind, *cells] for kind, cells in rows.items()])


if __name__ == '__main__':
    main()
