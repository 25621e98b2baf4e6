"""Refuses each allocation, thread start, read and write of the program in turn, on whichever thread it is made.

Each call is refused alone, and then with all that come after it. A run that is refused says so, and has written nothing but perhaps
a beginning of its report; a run that takes what it asked for elsewhere has its whole report. The tests of cp_test_rounds that look at a
machine after a refusal see some in the same way. refusing.c does the refusing.
"""
import concurrent.futures
import contextlib
import pathlib
import subprocess
import tempfile
import threading

from running import PROGRAM, ROOT, ROUNDS, expect, expect_at_least, expect_one_of, run, wrong

MEMORY = (3, b'', b'fault M\n')
# What is refused, and the fewest refusals of each: a little below what docs/PROOFS.md says, since builds differ by a few allocations.
KINDS = ('ALLOCATION', 'THREAD', 'READ', 'WRITE')
LEAST_OF_RUN = {'ALLOCATION': 430, 'THREAD': 1, 'READ': 430, 'WRITE': 165}
LEAST_OF_REPLAY = {'ALLOCATION': 495, 'THREAD': 0, 'READ': 610, 'WRITE': 165}
LEAST_OF_OUTCOME = {'ALLOCATION': 460, 'THREAD': 1, 'READ': 300, 'WRITE': 170}
LEAST_OF_OBJECT = {'ALLOCATION': 580, 'THREAD': 1, 'READ': 300, 'WRITE': 395}
LEAST_OF_LOOP = {'ALLOCATION': 770, 'THREAD': 1, 'READ': 630, 'WRITE': 265}
LEAST_OF_SEARCH = {'ALLOCATION': 1150, 'THREAD': 0, 'READ': 700, 'WRITE': 530}
LEAST_OF_NAMED = {'ALLOCATION': 380, 'THREAD': 1, 'READ': 350, 'WRITE': 80}
LEAST_OF_EXPLANATION = {'ALLOCATION': 150, 'THREAD': 0, 'READ': 190, 'WRITE': 385}
LEAST_AT_ONCE = 470
LEAST_OF_SAVED = 150
LEAST_OF_SEARCHED = 6
LEAST_OF_TRACE = {'READ': 300, 'WRITE': 255}

# The tests of cp_test_rounds that look at a machine after a refusal, and the fewest times that they have to see one.
TESTS = {'a_refused_machine_is_made_again': 12, 'a_refused_round_leaves_the_machine_as_it_was': 550, 'a_refused_run_has_made_the_rounds_before': 200,
         'a_refused_replay_leaves_the_machine_as_it_was': 240, 'a_refused_round_leaves_askers_as_they_were': 380,
         'a_refused_run_of_askers_has_made_the_rounds_before': 120}


class Refusing:
    """The program with refusing.c loaded. Each read and write moves one byte, so that there are many."""

    def __init__(self, folder):
        self.folder, self.library = folder, folder / 'refusing.so'
        subprocess.run(['cc', '-shared', '-fPIC', '-O1', '-o', self.library, ROOT / 'trials' / 'refusing.c'], check=True)

    def run(self, words, program=PROGRAM, **refused):
        """The answer of a run, how many of its calls were refused, and how many allocations were made beside the first thread."""
        calls = self.folder / f'calls{threading.get_ident()}'
        with contextlib.suppress(FileNotFoundError):
            calls.unlink()
        settings = {name: str(value) for name, value in refused.items()}
        found = run(words, {'LD_PRELOAD': str(self.library), 'CALLS': str(calls), 'ONE_BYTE': '1', **settings}, program=program)
        # A run that a signal ends leaves no counts.
        counts = calls.read_text().split() if calls.exists() else ['0'] * 7
        return found, int(counts[4]), int(counts[6])


def is_cut(found, due):
    """Whether an answer says that a write failed, and what was written is a beginning of the report but not the whole."""
    status, out, error = found
    return (status, error) == (4, b'fault I2\n') and len(out) < len(due) and due.startswith(out)


def judge(kind, what, found, due, answered):
    """Notes an answer that a run with a refused call must not have. `answered` is the status of a run that isn't refused."""
    if kind == 'READ':
        expect(what, (found[0], found[1]), (4, b''))
    elif kind == 'WRITE':
        expect(f'{what} {found!r:.500}', is_cut(found, due), True)
    elif kind == 'THREAD':
        expect(what, found, MEMORY)
    else:
        # A collection that can't reserve the room that it foresees takes less.
        expect_one_of(what, found, [MEMORY, (answered, due, b'')])


def refuse_each(refusing, kind, words, answered, **settings):
    """Refuses the calls of a kind one after another, until a run meets no refusal. Returns how many were refused."""
    due = run(words)[1]
    for number in range(1, 100_000):
        found, refused, beside = refusing.run(words, **{f'REFUSE_{kind}': number}, **settings)
        if not refused:
            expect(f'no refused {kind}, {words[0]}', (found, beside), ((answered, due, b''), 0))
            return number - 1
        judge(kind, f'{kind} {number} {settings}', found, due, answered)


class Refusals:
    """Refusals of several commands, which run beside one another."""

    def __init__(self, pool, refusing):
        self.pool, self.refusing, self.begun = pool, refusing, []

    def begin(self, call, *words, **settings):
        """Begins what refuses calls, and returns what will have its result."""
        begun = self.pool.submit(call, self.refusing, *words, **settings)
        self.begun.append(begun)
        return begun

    def begin_kinds(self, words, answered=0, kinds=KINDS):
        """Begins to refuse the calls of each kind in turn, each alone."""
        return {kind: self.begin(refuse_each, kind, words, answered) for kind in kinds}

    def begin_all(self, words, answered=0):
        """Begins to refuse the calls of each kind in turn, each alone, and each with all that come after it."""
        for kind in KINDS:
            self.begin(refuse_each, kind, words, answered, FROM_THEN_ON=1)
        return self.begin_kinds(words, answered)


def counts_of(what, begun, least):
    """How many calls of each kind were refused in a command."""
    counts = {kind: refused.result() for kind, refused in begun.items()}
    for kind, count in counts.items():
        expect_at_least(f'{what}: {kind}', count, least[kind])
    return counts


def refuse_rounds(refusing, test):
    """Refuses the allocations and thread starts of a test in turn. Returns how many of them the machine met.

    The test passes, or fails for want of memory before it has a machine. It says `otherwise` if its machine isn't as the rules say.
    """
    met = 0
    for kind in ('ALLOCATION', 'THREAD'):
        for number in range(1, 100_000):
            (status, out, error), refused, _ = refusing.run([f'refusals::{test}'], ROUNDS, **{f'REFUSE_{kind}': number})
            seen, otherwise, unmade = b'is refused' in out, b'otherwise' in out + error, b'its result gives status 1' in out + error
            if not (status == 0 or status == 101 and unmade and not seen and not otherwise):
                wrong.append(f'{test}, {kind} {number}: {status} {out} {error}')
            met += seen
            if not refused:
                break
    expect_at_least(test, met, TESTS[test])
    return met


def refuse_saving(refusing):
    """Refuses the writes of a search that saves its schedule, one after another. Each says so, and leaves at most a beginning of the schedule.

    Returns how many writes to the file were refused.
    """
    name = refusing.folder / 'found'
    saved = name.with_suffix('.stuck')
    words = ['search', ROOT / 'docs' / 'tutorial' / 'slot.cp', '--save', name]
    answer, told = run(words), f'{name}.stuck and {name}.fault can\'t be written: '.encode()
    whole, met = saved.read_bytes(), 0
    for number in range(1, 100_000):
        saved.unlink(missing_ok=True)
        found, refused, _ = refusing.run(words, REFUSE_WRITE=number)
        left = saved.read_bytes() if saved.exists() else b''
        if not refused:
            expect('a saved schedule', (found, left), (answer, whole))
            return met
        if found[1] == answer[1]:
            met += 1
            expect(f'write {number} of a saved schedule', (found[0], found[2].startswith(told), whole.startswith(left)), (4, True, True))
        else:
            judge('WRITE', f'write {number} of a search that saves', found, answer[1], answer[0])
            expect(f'a schedule of a report that isn\'t written, {number}', saved.exists(), False)


def refuse_threads_of_search(refusing, settings):
    """Refuses the thread starts of a search in turn. The calling thread does what the thread would have done, so the answer stays the same.

    Returns how many were refused.
    """
    words = ['search', 'philosophers.cp', '--workers', '4']
    due = run(words)
    for number in range(1, 10_000):
        found, refused, _ = refusing.run(words, REFUSE_THREAD=number, **settings)
        expect(f'thread start {number} of a search {settings}', found, due)
        if not refused:
            return number - 1


def told(what, counts):
    return (f'of {what} {counts["ALLOCATION"]} allocations, {counts["THREAD"]} thread starts, {counts["READ"]} reads '
            f'and {counts["WRITE"]} writes')


def commands(folder, resumed):
    """The commands whose calls of each kind are refused: what they are, the fewest refusals, their words and their status."""
    text, order, given, named = (folder / name for name in ('text.cp', 'order', 'input', 'named'))
    text.write_text(resumed)
    order.write_text('P1 P1 P2 P2 P3 P3 P4 P4 K1 K2 K3 K4\n' * 5)
    given.write_bytes(b'a\x1cb')
    named.write_bytes(b'hello')
    plan = ['--workers', '2', '--chunk', '1', '--wave', '2']
    capitals = ROOT / 'docs' / 'tutorial' / 'capitals.cp'
    return [('a run', LEAST_OF_RUN, ['run', text, '--rounds', '5', '--turn', '2', *plan, '--input', given], 0),
            ('a replay', LEAST_OF_REPLAY, ['replay', text, order, '--turn', '2', '--input', given], 0),
            ('a run with a named input', LEAST_OF_NAMED, ['run', capitals, '--rounds', '2', '--in', f't={named}'], 0),
            ('an outcome', LEAST_OF_OUTCOME, ['outcome', 'squarers.cp', '--turn', '4'], 6),
            ('an outcome as an object', LEAST_OF_OBJECT, ['outcome', 'squarers.cp', '--turn', '4', '--json', '--show', 'initial'], 6),
            ('an outcome with a loop', LEAST_OF_LOOP, ['outcome', 'deadlocks/starved.cp', '--limit', '20'], 7),
            ('a search', LEAST_OF_SEARCH, ['search', ROOT / 'docs' / 'tutorial' / 'slot.cp'], 5),
            ('an explanation', LEAST_OF_EXPLANATION, ['explain', 'rules/c4_recursion.cp'], 1)]


def refuse_in_turn(resumed, counters):
    """Refuses the calls of three runs, a replay, an outcome, a search, a trace and an explanation. `resumed` is a text in which a process resumes another, `counters` one of
    whose rounds several are made at once. Returns what was tried."""
    with tempfile.TemporaryDirectory() as name, concurrent.futures.ThreadPoolExecutor() as pool:
        folder = pathlib.Path(name)
        refusals = Refusals(pool, Refusing(folder))
        counting = folder / 'counters.cp'
        counting.write_text(counters)
        begun = [(what, least, refusals.begin_all(words, answered)) for what, least, words, answered in commands(folder, resumed)]
        at_once = refusals.begin_kinds(['run', counting, '--rounds', '40', '--turn', '2'], kinds=['ALLOCATION'])
        traced = refusals.begin_kinds(['trace', 'squarers.cp', '--rounds', '3', '--turn', '4'], kinds=LEAST_OF_TRACE)
        waves = [refusals.begin(refuse_each, 'THREAD', ['run', 'squarers.cp', '--rounds', '5', '--workers', '4', '--wave', wave], 0) for wave in '12']
        searched = [refusals.begin(refuse_threads_of_search, settings) for settings in ({}, {'FROM_THEN_ON': 1})]
        saving = refusals.begin(refuse_saving)
        tests = [refusals.begin(refuse_rounds, test) for test in TESTS]
        tried = [told(what, counts_of(what, counts, least)) for what, least, counts in begun]
        counts_of('rounds made at once', at_once, {'ALLOCATION': LEAST_AT_ONCE})
        counts_of('a trace', traced, LEAST_OF_TRACE)
        expect_at_least('thread starts of 4 workers', sum(wave.result() for wave in waves), 3)
        expect_at_least('thread starts of a search', sum(search.result() for search in searched), LEAST_OF_SEARCHED)
        expect_at_least('writes of a saved schedule', saving.result(), LEAST_OF_SAVED)
        met = sum(test.result() for test in tests)
        for refused in refusals.begun:
            refused.result()
    return '; '.join([*tried, f'of one that makes rounds at once {at_once["ALLOCATION"].result()} allocations',
                      f'of a trace {traced["READ"].result()} reads and {traced["WRITE"].result()} writes', f'of machines in tests {met} calls'])
