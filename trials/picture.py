#!/usr/bin/env python3
"""Shows the picture of a trace as a browser does: `trials/picture.py EXAMPLE PNG [OPTION ..]`.

EXAMPLE is a text of docs/examples, which `cpm trace --svg` draws with these options, or an SVG that was drawn before. Headless
Chromium renders it to PNG (Debian's package `chromium`; CHROMIUM names another program). README's picture is
`cpm trace philosophers.cp --rounds 40 --turn 4 --svg`.
"""
import os
import pathlib
import subprocess
import sys
import tempfile
import xml.etree.ElementTree

from running import run

CHROMIUM = os.environ.get('CHROMIUM', 'chromium')


def drawn(example, options):
    """The picture of an example, or the one in a file."""
    if example.endswith('.svg'):
        return pathlib.Path(example).read_bytes()
    status, picture, errors = run(['trace', example, '--svg', *options])
    if status != 0:
        sys.exit(errors.decode())
    return picture


def size_of(picture):
    """The width and the height of a picture, which has to be well formed."""
    root = xml.etree.ElementTree.fromstring(picture)
    return int(root.get('width')), int(root.get('height'))


def render(picture, image):
    """Writes what a browser shows of a picture."""
    width, height = size_of(picture)
    with tempfile.TemporaryDirectory() as folder:
        page = pathlib.Path(folder, 'picture.svg')
        page.write_bytes(picture)
        words = ['--headless', '--no-sandbox', '--disable-gpu', '--hide-scrollbars', f'--user-data-dir={folder}/profile']
        words += [f'--window-size={width},{height}', f'--screenshot={image}', page.as_uri()]
        ended = subprocess.run([CHROMIUM, *words], stderr=subprocess.PIPE, timeout=120)
        if ended.returncode != 0 or not image.exists():
            sys.exit(ended.stderr.decode())


def main():
    if len(sys.argv) < 3:
        sys.exit(__doc__)
    example, image, *options = sys.argv[1:]
    render(drawn(example, options), pathlib.Path(image).resolve())


if __name__ == '__main__':
    main()
