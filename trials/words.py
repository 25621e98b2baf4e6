#!/usr/bin/env python3
"""Checks the English of the pages: misleading words, long sentences, long lines, and names of files and definitions that don't exist.

It looks for words in the comments of crates, too. It prints each finding with its page and line, and fails if there is one. Code, headings and tables have no sentences; a table's cells are counted by themselves.
"""
import pathlib
import re
import sys

ROOT = pathlib.Path(__file__).resolve().parent.parent
MAX_COLUMNS = 100
MAX_CELL_WORDS = 25
LONG_SENTENCE_WORDS, MAX_LONG_PERCENT = 30, 5
MAX_SENTENCE_WORDS = 45
# What to avoid, and what to write.
AVOIDED = {
    r'tell|tells|told|telling': 'print, report, say, show',
    r'stand|stands|stood|standing': 'is, represents',
    r'lie|lies|lay|lain': 'is, is stored',
    r'reckon(?:s|ed|ing)?': 'estimate',
    r'dear|dearer|dearest': 'expensive',
    r'mend|mends|mended|mending': 'fix',
    r'anew': 'again',
    r'of whom': 'which',
    r'for ever': 'forever',
    r'nothing but': 'only',
    r'by the clock': 'wall-clock',
    r'slip|slips': 'mistake',
    r'go on|goes on|going on|went on': 'continue, keep',
    r'gives? up|refuses? to': 'stop, fail',
    r'the same of': 'the same for',
    r'at last': 'last, finally',
    r'for all that': 'nevertheless',
    r'asked of|had of': 'for, from',
}
# What to avoid in pages. Comments speak of one thing alone, or beside another.
AVOIDED_IN_PAGES = {r'alone': 'only', r'beside': 'next to, with'}
# Where these words are right.
IDIOMS = (r'let alone', r'lays? out', r'stand-ins?')
DEFINITION = r'`((?:cp_\w+/)?[A-Z]\w+\.\w+)`'
# Pages that name definitions, and the crate of a definition without one. In meaning.md each section names its own.
DEFAULT_CRATES = {'glossary.md': 'cp_model', 'meaning.md': '*'}
FILE = r'(?:\.ci|bench|crates|docs|trials|worked)(?:/[\w.*-]+)+'
# What is built, and what represents a name in a pattern.
NOT_KEPT = r'/out\b|(?:FILE|FOLDER|NAME)\b'


def pages():
    """The pages that are checked."""
    found = [*ROOT.glob('*.md'), *ROOT.glob('*/README.md'), *ROOT.glob('docs/**/*.md')]
    return sorted(set(found))


def without_code(page):
    """The lines of a page by number, without its fenced blocks."""
    fenced = False
    for number, line in enumerate(page.read_text().splitlines(), 1):
        if line.lstrip().startswith('```'):
            fenced = not fenced
        elif not fenced:
            yield number, line


def plain(text):
    """Text without Markdown: a piece of code or the name of a file is one word."""
    text = re.sub(r'`[^`]+`', 'CODE', text)
    text = re.sub(r'!?\[([^]]*)\]\([^)]*\)', r'\1', text)
    return re.sub(r'\S*\w[./]\w\S*', 'CODE', text).replace('*', '')


def is_table(line):
    return line.lstrip().startswith('|')


def is_heading(line):
    return line.startswith('#')


def sentences(page):
    """The sentences of a page, each with the line at which its paragraph begins."""
    first, words = 0, []
    for number, line in [*without_code(page), (0, '')]:
        ends = not line.strip() or is_table(line) or is_heading(line)
        if ends or re.match(r'\s*(?:[-*]|\d+\.)\s', line):
            yield from ((first, sentence) for sentence in re.split(r'(?<=[.?!])[)"]*\s+', plain(' '.join(words)).strip()) if sentence)
            first, words = number, []
        if not ends:
            words.append(re.sub(r'^\s*(?:[-*]|\d+\.)\s+', '', line))


def count_words(text):
    return len(re.findall(r"[\w'-]*\w[\w'-]*", text))


def avoided_in(text, avoided):
    """The words of a text that should be others."""
    text = re.sub('|'.join(IDIOMS), '', plain(text), flags=re.I)
    for pattern, better in avoided.items():
        for found in re.findall(rf'\b(?:{pattern})\b', text, re.I):
            yield f'"{found}": {better}'


def wrong_lines(page):
    """Avoided words, long lines and long cells of a page."""
    for number, line in without_code(page):
        for finding in avoided_in(line, AVOIDED | AVOIDED_IN_PAGES):
            yield number, finding
        if is_table(line):
            for cell in re.split(r'(?<!\\)\|', line):
                if count_words(plain(cell)) > MAX_CELL_WORDS:
                    yield number, f'a cell of {count_words(plain(cell))} words'
        elif len(line) > MAX_COLUMNS:
            yield number, f'a line of {len(line)} columns'


def missing_files(page):
    """What a page points to that isn't there: files, crates and definitions."""
    crates = {path.name for path in (ROOT / 'crates').iterdir()}
    for number, line in without_code(page):
        for target in re.findall(r'\]\(([^)#:]+)(?:#[^)]*)?\)', line):
            if not (page.parent / target).exists():
                yield number, f'no file {target}'
        for target in re.findall(rf'(?<![\w/.]){FILE}', line):
            if not re.search(NOT_KEPT, target) and not list(ROOT.glob(target.rstrip('.'))):
                yield number, f'no file {target}'
        for crate in re.findall(r'\bcp_[a-z_]+[a-z]\b', line):
            if crate not in crates:
                yield number, f'no crate {crate}'
        for name in re.findall(DEFINITION, line) if page.name in DEFAULT_CRATES else ():
            if not is_definition(name, DEFAULT_CRATES[page.name]):
                yield number, f'no definition {name}'


def is_definition(name, default):
    """Whether a definition such as `States.Gate` or `cp_outcome/Verdicts.verdict_of` exists."""
    crate, _, rest = name.rpartition('/')
    module, word = rest.split('.')
    files = ROOT.glob(f'crates/{crate or default}/specs/{module}.antt')
    return any(re.search(rf'^ *(?:abbrev )?(?:pub )?(?:data |record )?{word}\b', file.read_text(), re.M) for file in files)


def wrong_sentences(page, counted):
    """The sentences of a page that are much too long, or begin with `Of`. Notes how long each sentence is."""
    for number, sentence in sentences(page):
        words = count_words(sentence)
        counted.append((words, page, number))
        if words > MAX_SENTENCE_WORDS:
            yield number, f'a sentence of {words} words: {sentence:.60} ..'
        if sentence.startswith('Of '):
            yield number, f'begin with the subject: {sentence:.60} ..'


def comments():
    """The comment lines of the crates, with their file and line."""
    for file in sorted([*ROOT.glob('crates/*/src/**/*.rt'), *ROOT.glob('crates/*/specs/*.antt'), *ROOT.glob('crates/*/proofs/**/*.antt')]):
        sign = '//' if file.suffix == '.rt' else '--'
        for number, line in enumerate(file.read_text().splitlines(), 1):
            if line.lstrip().startswith(sign):
                yield file, number, line


def main():
    wrong, counted = [], []
    for page in pages():
        findings = [*wrong_lines(page), *missing_files(page), *wrong_sentences(page, counted)]
        wrong += [f'{page.relative_to(ROOT)}:{number}: {what}' for number, what in sorted(set(findings))]
    long = [(page, number, count) for count, page, number in counted if count > LONG_SENTENCE_WORDS]
    if 100 * len(long) > MAX_LONG_PERCENT * len(counted):
        wrong += [f'{page.relative_to(ROOT)}:{number}: a sentence of {count} words' for page, number, count in long]
        wrong.append(f'{len(long)} of {len(counted)} sentences have more than {LONG_SENTENCE_WORDS} words')
    wrong += [f'{file.relative_to(ROOT)}:{number}: {what}'
              for file, number, line in comments() for what in avoided_in(line, AVOIDED)]
    print(*wrong, sep='\n', end='\n' if wrong else '')
    return 1 if wrong else 0


if __name__ == '__main__':
    sys.exit(main())
