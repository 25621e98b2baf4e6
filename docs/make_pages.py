#!/usr/bin/env python3
"""Writes the pages of `cpm explain RULE` from docs/rules.md, docs/faults.md, docs/deadlocks.md and the programs of docs/examples.

A section `## C4: TITLE` has a paragraph that names a program, then *Why:* and *Fix:*. The program rules/NAME.cp breaks the rule, and rules/NAME.mended.cp
doesn't. The program faults/NAME.cp has the report faults/NAME.report, and deadlocks/NAME.cp the outcome deadlocks/NAME.outcome. `make_pages.py` writes crates/cp_explain_pages/src/pages.rt. `make_pages.py --unchanged` fails
if the file isn't what it would write.
"""
import pathlib, re, sys, textwrap

DOCS = pathlib.Path(__file__).resolve().parent
EXAMPLES = DOCS / 'examples'
TARGET = DOCS.parent / 'crates' / 'cp_explain_pages' / 'src' / 'pages.rt'
HEAD = '''//! The pages of `explain RULE`, written by `docs/make_pages.py` from docs/rules.md, docs/faults.md,
//! docs/deadlocks.md and their examples.

/// A page: the rule or the fault, and what it means.
#[derive(Clone, Copy)]
pub struct RulePage {
    pub(crate) rule: &'static str,
    pub(crate) text: &'static str,
}
'''


def plain(words):
    """Words without the links and quotes of Markdown."""
    return re.sub(r'\[([^]]*)\]\([^)]*\)', r'\1', ' '.join(words.split()))


def wrapped(words):
    return '\n'.join(textwrap.wrap(words, 78)) + '\n'


def indented(text):
    return textwrap.indent(text, '  ')


def refused(name, line, words):
    """What a page shows of a program that breaks a rule."""
    text = wrapped(f'This program is {line}: {plain(words)}') + '\n' + indented((EXAMPLES / 'rules' / f'{name}.cp').read_text())
    return text + '\nFixed:\n\n' + indented((EXAMPLES / 'rules' / f'{name}.mended.cp').read_text())


def stopped(name, command, words):
    """What a page shows of a program that a fault stops."""
    text = wrapped(f'In this program: {plain(words)}') + '\n' + indented((EXAMPLES / 'faults' / f'{name}.cp').read_text())
    verb, options = command.split(maxsplit=1)
    report = (EXAMPLES / 'faults' / f'{name}.report').read_text()
    return text + f'\n`cpm {verb} {name}.cp {options}` reports:\n\n' + indented(report)


def page(rule, title, body):
    """The page of a section."""
    why = plain(re.search(r'\*Why:\*(.*?)\n\*Fix:\*', body, re.S).group(1))
    fix = plain(re.search(r'\*Fix:\*(.*?)(?:\n\n|\n#|\Z)', body + '\n\n', re.S).group(1))
    text = f'{rule}: {title}\n\n' + wrapped(f'Why: {why}') + wrapped(f'Fix: {fix}')
    named = re.match(r'\s*`(\w+)\.cp`, `([^`]*)`: ([^\n]*(?:\n(?!\n)[^\n*]*)*)', body)
    if named:
        text += '\n' + (stopped if rule.startswith('F') else refused)(*named.groups())
    return text


def literal(text):
    escaped = text.replace('\\', '\\\\').replace('"', '\\"').replace('\n', '\\n')
    return f'"{escaped}"'


def table(name, topic, letters, document):
    """The constant with the pages of those sections of a document that begin with one of the letters."""
    sections = re.split(r'^#+ ', (DOCS / document).read_text(), flags=re.M)
    found = [re.match(rf'([{letters}]\d*): ([^\n]*)\n(.*)', section, re.S) for section in sections]
    pages = [(match.group(1), page(*match.groups())) for match in found if match]
    rows = ''.join(f'    RulePage {{\n        rule: "{rule}",\n        text: {literal(text)},\n    }},\n' for rule, text in pages)
    return f'\n/// One page for each {topic}, in the order of docs/{document}.\npub const {name}: [RulePage; {len(pages)}] = [\n{rows}];\n'


def kind_of_deadlock(section):
    """What the page of deadlocks shows of a section."""
    title, body = section.split('\n', 1)
    name, options, words, fix = re.match(r'\s*`(\w+)\.cp`(?:, `([^`]*)`)?: (.*?)\n\n\*Fix:\*(.*)', body, re.S).groups()
    program = indented((EXAMPLES / 'deadlocks' / f'{name}.cp').read_text())
    outcome = indented((EXAMPLES / 'deadlocks' / f'{name}.outcome').read_text())
    words = plain(words)[0].upper() + plain(words)[1:]
    asked = f'cpm outcome {name}.cp' + (f' {options}' if options else '')
    return f'\n{title}\n\n' + wrapped(words) + wrapped(f'Fix: {plain(fix)}') + f'\n{program}\n`{asked}` prints:\n\n{outcome}'


def deadlocks():
    """The constant with the page of deadlocks."""
    head, *sections = re.split(r'^## ', (DOCS / 'deadlocks.md').read_text(), flags=re.M)
    title, *paragraphs = head.strip().split('\n\n')
    # The last paragraph is about the sections of the document.
    front = '\n'.join(wrapped(plain(paragraph)) for paragraph in paragraphs[:-1])
    text = title.removeprefix('# ') + '\n\n' + front + ''.join(map(kind_of_deadlock, sections))
    return f'\n/// The page of docs/deadlocks.md.\npub const DEADLOCK: RulePage = RulePage {{\n    rule: "DEADLOCK",\n    text: {literal(text)},\n}};\n'


def code():
    rules = table('NAME_RULES', 'rule about names and types', 'C', 'rules.md') + table('OTHER_RULES', 'other rule', 'SYIOM', 'rules.md')
    return HEAD + rules + table('FAULTS', 'fault', 'F', 'faults.md') + deadlocks()


if __name__ == '__main__':
    if '--unchanged' in sys.argv:
        sys.exit(0 if TARGET.read_text() == code() else f'{TARGET} is not up to date')
    TARGET.write_text(code())
