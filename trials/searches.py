"""Searches all schedules of the programs in docs/examples and docs/tutorial.

The verdicts were worked out by hand. Each schedule that a search finds is saved, and its replay has
to leave all processes where the search says.
"""
import concurrent.futures
import json
import pathlib
import tempfile

from running import EXAMPLES, ROOT, expect, run

TUTORIAL = ROOT / 'docs' / 'tutorial'
# What the schedules of each program lead to, without the programs that break a rule.
ENDED, STUCK, FAULT, CLOCK = 'ended', 'stuck', 'fault', 'clock'
VERDICTS = {
    EXAMPLES: {
        (ENDED,): 'nested.mended philosophers readers scheduler seven writers',
        # In each of these a process waits for another one in a `cycle` that never ends.
        (STUCK,): 'buffer forks sieve',
        (FAULT,): 'division fibonacci squarers squares',
    },
    EXAMPLES / 'faults': {
        (FAULT,): 'f1_beyond_the_subrange f2_beyond_the_array f3_too_large f4_nothing_counted f5_two_in_a_queue '
                  'f6_without_init f7_init_twice f8_no_arm f9_no_result',
    },
    EXAMPLES / 'rules': {
        (ENDED,): ' '.join(f'{name}.mended' for name in (
            'c10_value_parameter_changed c11_function_with_var c12_init_in_a_routine c13_too_many_words c2_types_differ '
            'c3_bounds_reversed c4_recursion c5_no_entry c6_array_of_processes c7_shared_class c9_delay_in_the_body '
            's1_foreign_character s2_comment_without_end s3_two_characters s4_large_number s5_long_word '
            'y1_missing_semicolon y2_text_cut_off').split()),
        # Nobody wakes the sleeper.
        (STUCK,): 'c8_queue_in_a_process.mended',
        # It counts beyond the integers.
        (FAULT,): 'c1_undeclared_name.mended',
    },
    TUTORIAL: {
        (ENDED,): 'capitals log tally terminals',
        (STUCK,): 'jobs pipeline slot',
        (ENDED, STUCK): 'store',
        (CLOCK,): 'alarm ticks',
    },
    TUTORIAL / 'solutions': {
        (ENDED,): 'fifo_test mixed parts semaphore store_mended sum undo',
        (STUCK,): 'early_continue more_jobs turned',
        (FAULT,): 'no_sink overflow',
        (CLOCK,): 'late tasks',
    },
}
EXITS = {ENDED: 0, STUCK: 5, FAULT: 6, CLOCK: 7}


def states_of(report):
    """The number and state of each process in a report."""
    lines = [line.split() for line in report.decode().splitlines()]
    return [(int(line[1]), line[3]) for line in lines if line[0] == 'process']


def try_replay(what, text, schedule, found):
    """Replays a schedule, and compares the states of processes with those that a search printed."""
    status, report, _ = run(['replay', text, schedule, '--turn', '1'])
    processes = [(process['process'], process['state']) for process in found['processes']]
    expect(f'{what}: replay of {schedule.suffix}', (status, states_of(report)), (0, processes))
    expect(f'{what}: order of {schedule.suffix}', found['order'].encode(), schedule.read_bytes())


def try_text(text, verdicts):
    """Searches a text, and replays the schedules that were found."""
    what = f'search {text.relative_to(ROOT)}'
    with tempfile.TemporaryDirectory() as folder:
        name = pathlib.Path(folder) / 'found'
        status, out, _ = run(['search', text, '--json', '--save', name])
        found = json.loads(out)
        kinds = {ENDED: found['ended'], STUCK: found['stuck'], FAULT: found['fault'], CLOCK: found.get('stopped') == CLOCK}
        expect(what, (status, {kind for kind in kinds if kinds[kind]}), (max(EXITS[kind] for kind in verdicts), set(verdicts)))
        saved = {file.suffix[1:]: file for file in pathlib.Path(folder).iterdir()}
        expect(f'{what}: files', set(saved), {kind for kind in (STUCK, FAULT) if kinds[kind]})
        for kind, schedule in saved.items():
            try_replay(what, text, schedule, found[kind])


def is_refused(text):
    return run(['check', text])[0] != 0


def try_searches():
    """Searches each text. Returns how many."""
    texts = {folder / f'{name}.cp': verdicts for folder, rows in VERDICTS.items() for verdicts, names in rows.items() for name in names.split()}
    others = {text for folder in VERDICTS for text in folder.glob('*.cp')} - set(texts)
    expect('accepted texts that are not searched', [text.name for text in sorted(others) if not is_refused(text)], [])
    with concurrent.futures.ThreadPoolExecutor() as pool:
        list(pool.map(lambda pair: try_text(*pair), texts.items()))
    return len(texts)
