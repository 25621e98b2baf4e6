#!/usr/bin/env python3
"""Runs the commands that README.md and the tutorial show, and compares their answers with the pages.

    trials/pages.py      CPM names another program than crates/cpm/out/cpm

In a fenced block of `console` each line `$ cpm ..` or `$ printf ..` is a command, and the lines up to the next `$` are all that it prints, where a
line `...` stands for any lines. A fenced block of `pascal` is a piece of a text in the folder where the page's commands are run. The
script prints what differs, and fails then, or if it found fewer commands than COMMANDS.
"""
import re
import shlex
import subprocess
import sys

from running import PROGRAM, ROOT, is_answer

DOCS = ROOT / 'docs'
TUTORIAL = DOCS / 'tutorial'
# A page and the folder in which its commands are run.
PAGES = [(ROOT / 'README.md', DOCS / 'examples'), (DOCS / 'book.md', TUTORIAL),
         *((page, TUTORIAL) for page in sorted(TUTORIAL.glob('**/*.md')))]
COMMANDS = 60


def blocks(page, language):
    """The contents of the page's fenced blocks of a language."""
    return re.findall(rf'^```{language}\n(.*?)^```$', page.read_text(), re.M | re.S)


def commands(page):
    """The words of each command that the page shows, and its answer."""
    for block in blocks(page, 'console'):
        for line, answer in re.findall(r'^\$ (.*)\n((?:(?!\$ ).*\n)*)', block, re.M):
            yield shlex.split(line), answer


def answer_of(words, folder):
    """What a command prints. One that writes a file, as in `printf 'TEXT' > FILE`, isn't run: the file is there, and is compared."""
    if words[0] == 'printf':
        _, text, _, file = words
        return '' if (folder / file).read_text() == text.encode().decode('unicode_escape') else f'{file} has another text\n'
    ended = subprocess.run([PROGRAM.resolve(), *words[1:]], stdin=subprocess.DEVNULL, stdout=subprocess.PIPE, stderr=subprocess.STDOUT, cwd=folder, timeout=60)
    return ended.stdout.decode('latin-1')


def main():
    count, wrong = 0, []
    for page, folder in PAGES:
        texts = [path.read_text() for path in sorted(folder.glob('**/*.cp'))]
        wrong += [f'{page.name}: in no text stands\n{piece}' for piece in blocks(page, 'pascal') if not any(piece in text for text in texts)]
        for words, wanted in commands(page):
            count += 1
            found = answer_of(words, folder)
            if not is_answer(wanted, found):
                wrong.append(f'{page.name}: {shlex.join(words)}: the page shows\n{wanted}and cpm prints\n{found}')
    if count < COMMANDS:
        wrong.append(f'{count} commands were found, fewer than {COMMANDS}')
    sys.exit('\n'.join(wrong) if wrong else 0)


if __name__ == '__main__':
    main()
