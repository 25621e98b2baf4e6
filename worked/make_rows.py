#!/usr/bin/env python3
"""Writes the worked texts of this folder as statements of the crate cp_test_definitions, and runs of some of them as statements of cp_test_machine.

Each folder is a module of statements, each file a text with its answers:

    == text                        the text, up to the next line that begins with ==, without its last line feed
    == text of EXPRESSION          the text as a Python expression, for long ones
    == check                       the output of `cpm check`: `accepted`, or the line of a refusal
    == run --rounds N [--turn N] [--tick N] [--input STRING] [--chains]
    == replay --order STRING [..]  strings are written as in Python
    == consumed --rounds N [..]    how much of its input each process has taken; no report shows it, and cpm has no such command
    the answer, up to the next line that begins with ==
    == run --rounds N of FILE      the answer is what stands in the file; so for each command

Lines before the first == say what the text shows. `make_rows.py` writes crates/cp_test_definitions/specs, proofs and src/rows.rt; for the texts
that COMPILED names, the statement that their compiled programs behave as the meaning does, in specs/Runs.antt and proofs of
crates/cp_test_machine. `make_rows.py --list` prints the cases as JSON, and
`make_rows.py --unchanged` fails if the files differ from what it would write.
"""
import json, pathlib, re, sys

HERE = pathlib.Path(__file__).resolve().parent
CRATES = HERE.parent / 'crates'
# Texts of monitors and queues, of input, of chains of askers, and of routines, types and loops. Each has several answers, so it has a name.
COMPILED = ('examples/buffer', 'meaning/input_in_subrange', 'monitors/a_chain_of_askers', 'processes/routines_types_and_loops')
WRITTEN = {}
DEFAULTS = {'rounds': '0', 'turn': '100', 'tick': '1', 'chains': 'false', 'input': '', 'order': ''}
# What the answer of a command is computed from, besides the text.
OPTIONS = {
    'check': (),
    'run': ('rounds', 'turn', 'tick', 'chains', 'input'),
    'replay': ('turn', 'tick', 'chains', 'input', 'order'),
    'consumed': ('rounds', 'turn', 'tick', 'input'),
}


def cases_of(path):
    """The (text, words, answer) of a file."""
    text, cases = None, []
    for block in re.split(r'^== ', path.read_text(), flags=re.M)[1:]:
        head, _, body = block.partition('\n')
        if head == 'text':
            text = body[:-1]
        elif head.startswith('text of '):
            text = eval(head[len('text of '):])
        elif body:
            cases.append((text, head, body))
        else:
            head, _, answer = head.rpartition(' of ')
            cases.append((text, head, (HERE.parent / answer).read_text()))
    return cases


def options(head):
    """The command and its options by name."""
    words = re.findall(r"--order '[^']*'|--input '[^']*'|\S+", head)
    command, found, k = words[0], dict(DEFAULTS), 1
    while k < len(words):
        word = words[k]
        if word.startswith(('--order ', '--input ')):
            found[word[2:7]] = eval(word[8:])
            k += 1
        elif word == '--chains':
            found['chains'] = 'true'
            k += 1
        else:
            found[word[2:]] = words[k + 1]
            k += 2
    return command, found


def as_bytes(text):
    """The term that stands for the bytes of a text."""
    parts = []
    for match in re.finditer(rb'[ -~\n]+|[^ -~\n]', text.encode('latin-1')):
        piece = match.group()
        if re.match(rb'[ -~\n]', piece):
            quoted = piece.decode().replace('\\', '\\\\').replace('"', '\\"').replace('\n', '\\n')
            parts.append(f'codes "{quoted}"')
        else:
            parts.append(f'({piece[0]} ∷ [])')
    return '(' + ' ++ '.join(parts) + ')' if parts else '[]'


def applied(function, head, text):
    """A function of a command's options, and of a text, which is a term."""
    command, found = options(head)
    terms = [as_bytes(found[name]) if name in ('input', 'order') else found[name] for name in OPTIONS[command]]
    return ' '.join([function, *terms, text])


def statement(text, head, answer):
    """The statement that the definitions give a text this answer."""
    command, _ = options(head)
    expected = as_bytes(answer if answer.startswith(('rounds ', 'accepted', 'consumed ')) else answer[:-1])
    return applied(f'{command}_answer', head, text) + f' ≡ {expected}'


def unfoldable():
    """The reading functions that a computation has to unfold, by module."""
    found = {}
    for crate in ('cp_scan', 'cp_model_grammar'):
        for path in sorted((HERE.parent / 'crates' / crate / 'specs').glob('*.antt')):
            names = re.findall(r'^\s*unfoldable pub (\S+) :', path.read_text(), re.M)
            if names:
                found[f'Rattle.{crate}.specs.{path.stem}'] = names
    return found


def write(path, text):
    """Records what a file of the crate has to contain."""
    WRITTEN[path] = text


def named_texts(path):
    """Names for the texts of a file that have several answers."""
    texts = [text for text, _, _ in cases_of(path)]
    return {text: f'{path.stem}_{texts.index(text) + 1}_text' for text in texts if texts.count(text) > 1}


def import_used(module, names, lines):
    """The line that imports those of a module's names that some lines use, if there are any."""
    words = re.split(r'[\s(){}]+', re.sub(r'"[^"]*"', '', ' '.join(lines)))
    used = [name for name in names if name.strip('◌') in words]
    return [f'use {module}.{{{", ".join(used)}}}'] if used else []


def write_module(folder):
    """One folder: its texts and statements, their proof, and the public function that states them."""
    name, title = folder.name, folder.name.capitalize()
    texts = {path: named_texts(path) for path in sorted(folder.glob('*.txt'))}
    lines, names = [], []
    for path, named in texts.items():
        for text, own in named.items():
            lines += [f'abbrev pub {own} : Text', f'{own} = {as_bytes(text)}', '']
        for k, (text, head, answer) in enumerate(cases_of(path), 1):
            own = f'{path.stem}_{k}'
            names.append(own)
            lines += [f'abbrev pub {own} : Type 0', f'{own} = {statement(named.get(text) or as_bytes(text), head, answer)}', '']
    lines += [f'abbrev pub {title} : Type 0', f'{title} = ' + ' × '.join(names), '']
    uses = [*import_used('Rattle.std.specs.Prelude', ['◌≡◌', 'true', 'false', '[]', '◌∷◌', '◌++◌', 'codes'], lines),
            *import_used('Rattle.cp_model.specs.Report', ['Text'], lines),
            *import_used('Rattle.cp_test_definitions.specs.Answers', ['check_answer', 'run_answer', 'replay_answer', 'consumed_answer'], lines)]
    heading = f'-- Worked texts and their answers: {name}. Written by worked/make_rows.py.'
    write(CRATES / 'cp_test_definitions' / 'specs' / f'{title}.antt', '\n'.join([heading, *uses, '', *lines]))
    write_proofs('cp_test_definitions', name, title, {own: 'refl' for own in names})
    return title, name, len(names)


def write_proofs(crate, name, title, holds):
    """A lemma for each statement, by computation, and the answer that puts them together."""
    modules = unfoldable()
    unfolding = 'unfolding ' + ' '.join(word for own in modules.values() for word in own)
    lemmas = [f'-- The answers of {name}, computed. Written by worked/make_rows.py.', 'use Rattle.std.proofs.Common.{refl}',
              f'use Rattle.{crate}.specs.{title}.{{{", ".join(holds)}}}']
    lemmas += [f'use {module}.{{{", ".join(own)}}}' for module, own in modules.items()]
    for own, proof in holds.items():
        lemmas += ['', f'pub {own}-holds : {own}', unfolding, f'{own}-holds = {proof}']
    write(CRATES / crate / 'proofs' / f'{title}Computed.antt', '\n'.join(lemmas) + '\n')
    cited = [f'{own}-holds' for own in holds]
    answers = [f'use Rattle.{crate}.proofs.{title}Computed.{{{", ".join(cited)}}}',
               f'use Rattle.{crate}.proofs.rows.{name}_hold.Goals as goal', '',
               'pub returns : goal.returns', 'returns c = (' + ', '.join(cited) + ')', '']
    write(CRATES / crate / 'proofs' / 'rows' / f'{name}_hold' / 'Answers.antt', '\n'.join(answers))


def write_rows():
    """The crate cp_test_definitions, except for its Answers.antt."""
    modules = [write_module(folder) for folder in sorted(HERE.iterdir()) if list(folder.glob('*.txt'))]
    path = CRATES / 'cp_test_definitions'
    write(path / 'proofs' / 'Lib.antt', ''.join(f'mod {title}Computed\n' for title, _, _ in modules))
    write(path / 'specs' / 'Lib.antt', ''.join(f'pub mod {title}\n' for title in ['Answers'] + [title for title, _, _ in modules]))
    code = ['//! The worked texts of the folder `worked`: each function says of one folder that the definitions',
            '//! give its answers.',
            '//!', '//! Written by worked/make_rows.py.', '']
    code += [f'ghost use Rattle.cp_test_definitions.specs.{title}.{{{title}}};' for title, _, _ in modules]
    for title, name, _ in modules:
        code += ['', f'/// Each of the answers of `worked/{name}`.', f'pub fn {name}_hold()', f'    ensures {{ {title} }}', '{}']
    write(path / 'src' / 'rows.rt', '\n'.join(code) + '\n')
    return sum(count for _, _, count in modules)


def write_compiled():
    """The runs of cp_test_machine, and their proof."""
    uses, runs = [], []
    for named in COMPILED:
        path = HERE / f'{named}.txt'
        texts = named_texts(path)
        uses.append(f'use Rattle.cp_test_definitions.specs.{path.parent.name.capitalize()}.{{{", ".join(texts.values())}}}')
        for text, head, _ in cases_of(path):
            command, _ = options(head)
            if command in ('run', 'consumed'):
                runs.append(applied(f'{command.capitalize()}IsMeant', head, texts[text]))
    lines = ['-- Worked texts whose compiled programs answer as the meaning does. Written by worked/make_rows.py.',
             'use Rattle.std.specs.Prelude.{true, false, [], codes}', *uses,
             'use Rattle.cp_test_machine.specs.Answers.{RunIsMeant, ConsumedIsMeant}', '',
             'abbrev pub Runs : Type 0', 'Runs =', '    ' + '\n    × '.join(runs), '']
    write(CRATES / 'cp_test_machine' / 'specs' / 'Runs.antt', '\n'.join(lines))
    write_proofs('cp_test_machine', 'runs', 'Runs', {'Runs': '(' + ', '.join(['refl'] * len(runs)) + ')'})


def listed():
    """All cases as JSON, one on each line."""
    found = []
    for path in sorted(HERE.glob('*/*.txt')):
        for k, (text, head, answer) in enumerate(cases_of(path), 1):
            command, words = options(head)
            case = {'name': f'{path.parent.name}/{path.stem} {k}', 'text': text, 'words': head, 'command': command, 'answer': answer}
            case.update({name: int(words[name]) for name in ('rounds', 'turn', 'tick')})
            case.update(input=words['input'], order=words['order'], chains=words['chains'] == 'true')
            found.append(json.dumps(case))
    return '[\n' + ',\n'.join(found) + '\n]\n'


def main():
    if '--list' in sys.argv:
        return sys.stdout.write(listed())
    count = write_rows()
    write_compiled()
    changed = [path for path, text in WRITTEN.items() if not path.exists() or path.read_text() != text]
    if '--unchanged' in sys.argv:
        sys.exit(f'written again by worked/make_rows.py: {changed}' if changed else 0)
    for path in changed:
        path.parent.mkdir(parents=True, exist_ok=True)
        path.write_text(WRITTEN[path])
    print(count, 'answers,', len(changed), 'files written')


if __name__ == '__main__':
    main()
