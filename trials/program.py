#!/usr/bin/env python3
"""Tests the built program cpm from outside: the examples and the worked texts, texts and orders made here, searches, each call refused in turn, and files that are
made to hurt.
It also runs the program on a terminal, and looks at how names are hashed.

`rt ci`, and `rt run < stdin` in crates/cpm, leave the program as crates/cpm/out/cpm; CPM names another. It needs a C compiler (`cc`).
It prints what is wrong and how much was tried, with --quiet only what is wrong, and ends with status 0 if nothing was wrong.
"""
import concurrent.futures
import itertools
import json
import pathlib
import re
import subprocess
import sys
import tempfile

from generated import text_of_counters, try_beginnings, try_counters, try_lawful_orders, try_long_chain, try_squarers
from hashing import look_for_hashes
from hurting import try_to_hurt
from refusals import refuse_in_turn
from running import EXAMPLES, ROOT, expect, expect_at_least, run, wrong
from searches import try_searches
from terminal import try_terminal

RESUMED = 'monitors/the_resumed_process_goes_ahead_of_askers 1'
# One worker, few and many, with the shortest and the longest chunks and waves.
PLANS = [['--workers', workers, '--chunk', chunk, '--wave', wave]
         for workers, chunk, wave in itertools.product(('1', '2', '3', '4', '7', '64'), ('1', '2', '255'), ('1', '2', '16', '255'))]


def try_examples():
    """Runs each text that has a report beside it, with the command in its comment."""
    count = 0
    for report in sorted(EXAMPLES.glob('*.report')):
        if not report.with_suffix('.order').exists():
            text = report.with_suffix('.cp').read_text()
            words = re.search(r'^ +cpm (run .*)$', text, re.MULTILINE).group(1).split()
            expect(report.name, run(words), (0, report.read_bytes(), b''))
            count += 1
    return count


def try_orders():
    """Replays each text in the orders that stand beside it, with the commands in its comment."""
    count = 0
    for order in sorted(EXAMPLES.glob('*.order')):
        text = (EXAMPLES / order.name.split('.')[0]).with_suffix('.cp').read_text()
        words = re.search(rf'^ +cpm (replay \S+ {re.escape(order.name)}.*)$', text, re.MULTILINE).group(1).split()
        expect(order.name, run(words), (0, order.with_suffix('.report').read_bytes(), b''))
        count += 1
    return count


def try_rules():
    """Checks each text that has the line of its refusal beside it."""
    count = 0
    for refusal in sorted(EXAMPLES.glob('**/*.refusal')):
        text = refusal.with_suffix('.cp').relative_to(EXAMPLES)
        expect(refusal.name, run(['check', text]), (1, b'', refusal.read_bytes()))
        count += 1
    return count


def try_explanations():
    """Explains each text that breaks a rule, with its explanation beside it, and checks the mended text."""
    count = 0
    for explanation in sorted((EXAMPLES / 'rules').glob('*.explanation')):
        text = explanation.with_suffix('.cp').name
        expect(explanation.name, run(['explain', text], folder=EXAMPLES / 'rules'), (1, explanation.read_bytes(), b''))
        mended = explanation.with_suffix('.mended.cp').name
        expect(mended, run(['check', mended], folder=EXAMPLES / 'rules'), (0, b'accepted\n', b''))
        count += 1
    return count


def try_faults():
    """Runs each text that a fault stops, by the command of its section in docs/faults.md."""
    count = 0
    for report in sorted((EXAMPLES / 'faults').glob('*.report')):
        text = report.with_suffix('.cp').name
        words = re.search(rf'^`{re.escape(text)}`, `run (.*?)`', (ROOT / 'docs' / 'faults.md').read_text(), re.MULTILINE).group(1).split()
        expect(report.name, run(['run', text, *words], folder=EXAMPLES / 'faults'), (0, report.read_bytes(), b''))
        count += 1
    return count


def try_deadlocks():
    """Asks for the outcome of each text of docs/deadlocks.md, by the options of its section."""
    statuses = {b'stuck': 5, b'fault': 6, b'running': 7}
    page = (ROOT / 'docs' / 'deadlocks.md').read_text()
    texts = re.findall(r'^`(\w+)\.cp`(?:, `([^`]*)`)?:', page, re.MULTILINE)
    for name, options in texts:
        answer = (EXAMPLES / 'deadlocks' / f'{name}.outcome').read_bytes()
        found = run(['outcome', f'{name}.cp', *options.split()], folder=EXAMPLES / 'deadlocks')
        expect(f'{name}.outcome', found, (statuses[answer.split()[0]], answer, b''))
    return len(texts)


def words_of(case, text, given, order):
    """The arguments with which the program gives the answer of a worked text: by each plan, if it is that of a run."""
    command = case['command']
    if command == 'check':
        return [['check', text]]
    if command == 'consumed':
        return []
    given.write_bytes(case['input'].encode('latin-1'))
    order.write_bytes(case['order'].encode('latin-1'))
    how = ['--turn', str(case['turn']), '--tick', str(case['tick']), '--input', given, *['--chains'] * case['chains']]
    if command == 'replay':
        return [['replay', text, order, *how]]
    return [['run', text, '--rounds', str(case['rounds']), *how, *plan] for plan in PLANS]


def worked():
    """The worked texts with their answers."""
    return json.loads(subprocess.run([sys.executable, ROOT / 'worked' / 'make_rows.py', '--list'], capture_output=True, check=True).stdout)


def try_case(case):
    """Compares the program with the answer of a worked text. Returns whether it has a command for it."""
    with tempfile.TemporaryDirectory() as folder:
        text, given, order = (pathlib.Path(folder) / name for name in ('text.cp', 'input', 'order'))
        text.write_bytes(case['text'].encode('latin-1'))
        answer = case['answer'].encode('latin-1')
        due = (1, b'', answer) if answer.startswith(b'refused ') else (0, answer, b'')
        calls = words_of(case, text, given, order)
        for words in calls:
            expect(f"{case['name']} {words[-6:]}", run(words), due)
    return bool(calls)


def try_worked(cases):
    with concurrent.futures.ThreadPoolExecutor() as pool:
        return sum(pool.map(try_case, cases))


def try_progress():
    """Progress that is shown and erased."""
    with tempfile.TemporaryDirectory() as folder:
        text = pathlib.Path(folder) / 'counting.cp'
        text.write_text('var x: integer; begin cycle x := 1; x := 2 end end.')
        # It takes some five seconds, of which the first shows nothing, and longer beside other trials on a slow machine.
        status, out, error = run(['run', text, '--rounds', '1000000', '--turn', '1000', '--progress'], timeout=300)
    shown = re.fullmatch(rb'(\rround \d+)+\r\x1b\[K', error) is not None
    expect('progress', (status, out.startswith(b'rounds 1000000\n'), shown), (0, True, True))
    expect('no progress of a short run', run(['run', 'seven.cp', '--rounds', '2', '--progress'])[2], b'')


def try_progress_of_search():
    """Progress of a search that takes some seconds: two processes count to 2,000, each in a monitor of its own."""
    with tempfile.TemporaryDirectory() as folder:
        text = pathlib.Path(folder) / 'counting.cp'
        text.write_text('type m = monitor; var x: integer; procedure entry e; begin x := (x + 1) mod 2000 end; begin end;'
                        ' p = process(a: m); begin cycle a.e end end; var g, h: m; b, c: p; begin init g, h, b(g), c(h) end.')
        status, _, error = run(['search', text, '--states', '1000000', '--progress'], timeout=300)
    expect('progress of a search', (status, re.fullmatch(rb'(\r\d+ of \d+ states)+\r\x1b\[K', error) is not None), (7, True))
    expect('no progress of a short search', run(['search', ROOT / 'docs' / 'tutorial' / 'slot.cp', '--progress'])[2], b'')


def try_workers_of_search():
    """A search finds the same with any number of workers. Each of these programs has enough states for several threads."""
    for text in ('philosophers.cp', 'readers.cp', 'buffer.cp'):
        for form in ([], ['--json'], ['--states', '500']):
            alone = run(['search', text, '--workers', '1', *form])
            for workers in ('2', '4', '64'):
                expect(f'search {text} by {workers} workers {form}', run(['search', text, '--workers', workers, *form]), alone)


def try_picture():
    picture = (ROOT / 'docs' / 'philosophers.svg').read_bytes()
    expect('a picture', run(['trace', 'philosophers.cp', '--rounds', '40', '--turn', '4', '--svg']), (0, picture, b''))


def main():
    cases = worked()
    resumed = next(case for case in cases if case['name'] == RESUMED)
    # This comes first: it sets limits between the fork and the start of the program, where other threads could hold a lock.
    hurt = try_to_hurt()
    look_for_hashes()
    with concurrent.futures.ThreadPoolExecutor() as pool:
        refused = pool.submit(refuse_in_turn, resumed['text'], text_of_counters())
        tries = [('examples', 11, try_examples), ('orders', 3, try_orders), ('refused texts', 21, try_rules), ('explanations', 20, try_explanations),
                 ('faults', 9, try_faults), ('deadlocks', 5, try_deadlocks), ('searches', 66, try_searches), ('worked texts', 500, try_worked, cases), ('beginnings of a text', 400, try_beginnings, resumed['text']),
                 ('lawful orders', 190, try_lawful_orders, resumed['text'], resumed['answer'].encode())]
        counts = {what: (least, pool.submit(*call)) for what, least, *call in tries}
        others = [pool.submit(*call) for call in ((try_counters, PLANS), (try_squarers, PLANS), (try_progress,), (try_progress_of_search,), (try_workers_of_search,), (try_long_chain,), (try_picture,), (try_terminal,))]
        for what, (least, count) in counts.items():
            expect_at_least(what, count.result(), least)
        for other in [refused, *others]:
            other.result()
    for line in wrong:
        print(line)
    if wrong or '--quiet' not in sys.argv:
        tried = ', '.join(f'{count.result()} {what}' for what, (_, count) in counts.items())
        print(f'{tried}; refused in turn: {refused.result()}; {hurt} runs on what is made to hurt; {len(wrong)} wrong')
    return 1 if wrong else 0


if __name__ == '__main__':
    sys.exit(main())
