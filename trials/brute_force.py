#!/usr/bin/env python3
"""Compares what cpm finds out about programs with a brute-force search over all their schedules.

    trials/brute_force.py [PROGRAM] [--count N] [--seed N] [--repository] [--states N] [--search]
                        [--quiet]

The script builds bench/brute by rustc. It tries each order of single steps of a program, and finds
whether some schedule ends, gets stuck or faults, and after how many late steps at the least. Its
search by calls has to find the same. PROGRAM, or what the variable CPM names, is compared with it:

- `cpm outcome`: with turns of 1, 2, 3 and 100 steps it prints a verdict that some schedule has.
- `cpm replay`: the schedule that brute force found for a verdict leads to that verdict. After this
  and after random schedules both have the same state.
- with --search, `cpm search`: it finds the same verdicts, with the same least numbers of late
  steps. It does so, too, if random processes are servers, as does `cpm outcome`.

Programs are random, or with --repository those of the repository. Those with more than --states
states are left out, and those that use the clock. The script prints what is wrong, with the seed of
each program, and how many were compared; with --quiet only what is wrong. It ends with status 0 if
nothing was wrong.
"""
import argparse
import collections
import concurrent.futures
import json
import pathlib
import random
import re
import subprocess
import sys
import tempfile

import running
from random_programs import program
from running import ROOT, expect, expect_one_of, run, wrong

sys.path += [str(ROOT / 'bench'), str(ROOT / 'worked')]
BRUTE = ROOT / 'bench' / 'brute' / 'main.rs'
TURNS = (1, 2, 3, 100)
# How many random schedules of each program are replayed.
SCHEDULES = 5
# The exits of bench/brute.
REFUSED, STOPPED = 1, 7
# The exits of `cpm outcome` and `cpm search`.
EXITS = {0: 'ended', 5: 'stuck', 6: 'fault', 7: 'running'}
# Verdicts, and states in which some process has faulted, whether or not others still move.
KINDS = ('ended', 'stuck', 'fault', 'faulted')
# Programs of the repository that are longer are left out.
MAX_LETTERS = 60_000


def build(folder):
    """Builds the brute-force search in a folder."""
    brute = pathlib.Path(folder) / 'brute'
    subprocess.run(['rustc', '-O', '--edition', '2021', '-o', brute, BRUTE], check=True)
    return brute


def least_steps(brute, file, *words):
    """The least number of late steps before a state of each kind, or why there is none."""
    status, out, error = run([*words, file], program=brute, timeout=600)
    if status:
        return error.decode().strip() if status in (REFUSED, STOPPED) else f'exit {status}'
    lines = dict(line.split(' ', 1) for line in out.decode().splitlines())
    return {kind: int(lines[kind].split()[1]) for kind in KINDS if lines[kind] != '0'}


def plain_report(report):
    """A report of cpm in the form of bench/brute, which has no names and no transcripts."""
    lines = [line.split() for line in report.decode().splitlines()]
    names = [line[1] for line in lines if line[0] == 'monitor']
    numbers = {name: str(number) for number, name in enumerate(names, 1)}
    heads = []
    for first, *words in lines:
        if first == 'process':
            number, _, status, *more = words
            more = [numbers[more[0]]] if status in ('asking', 'delayed') else more
            heads.append(' '.join(['process', number, status, *more]) + ':')
        elif first == 'monitor':
            heads.append(' '.join(['monitor', numbers[words[0]], *words[1:]]) + ':')
        elif first == 'var':
            heads[-1] += f' {words[-1]}'
        elif first == 'queue':
            heads[-1] += ' 0' if words[-1] == '-' else f' {words[-1]}'
    return heads


def verdict_of(report):
    """The verdict of a plain report, or `running`."""
    processes = [line for line in report if line.startswith('process')]
    statuses = {re.match(r'process \d+ (\w+)', line)[1] for line in processes}
    if 'ready' in statuses:
        return 'running'
    if 'fault' in statuses:
        return 'fault'
    return 'ended' if statuses == {'ended'} else 'stuck'


def has_fault(report):
    return any(re.match(r'process \d+ fault', line) for line in report)


def try_outcomes(what, file, possible, words=()):
    """Tries `cpm outcome` with turns of several lengths. A program may run forever."""
    for turn in TURNS:
        status, _, error = run(['outcome', file, '--turn', str(turn), *words])
        found = EXITS.get(status, status)
        expect_one_of(f'{what}: turns of {turn} {error.decode()}', found, [*possible, 'running'])


def replayed(what, brute, file, schedule):
    """The plain report after a schedule, on which both programs have to agree."""
    schedule_file = file.with_suffix('.schedule')
    schedule_file.write_text(schedule)
    status, report, error = run(['replay', file, schedule_file, '--turn', '1'])
    _, plain, _ = run(['--replay', schedule_file, file], program=brute)
    found = plain_report(report)
    expect(f'{what}: cpm replay {schedule:.300} {error.decode()}', (status, found),
           (0, plain.decode().splitlines()))
    return found


def try_found_schedules(what, brute, file, kinds, states):
    """Replays a schedule for each kind of states that the brute-force search found."""
    for kind in kinds:
        words = ['--states', states, '--schedule', kind, file]
        schedule = run(words, program=brute, timeout=600)[1].decode()
        report = replayed(what, brute, file, schedule)
        found = (has_fault(report) and kind) if kind == 'faulted' else verdict_of(report)
        expect(f'{what}: the schedule for {kind} {schedule:.300}', found, kind)


def random_schedule(rng, processes):
    """Random events in a few rounds. Those whose process has another kind of step do nothing."""
    count = rng.randint(20, 300)
    events = [f'{rng.choice("PK")}{rng.randint(1, processes)}' for _ in range(count)]
    starts = [0, *sorted(rng.choices(range(count), k=rng.randint(0, 4)))]
    rounds = [events[start:end] for start, end in zip(starts, [*starts[1:], count])]
    # The initial process comes first, so that most schedules start the other processes.
    rounds.insert(0, ['K1'] * rng.choice([5, 20, 40]))
    return ''.join(' '.join(events) + '\n' for events in rounds)


def try_random_schedules(what, rng, brute, file):
    start = replayed(what, brute, file, '')
    processes = sum(line.startswith('process') for line in start)
    for _ in range(SCHEDULES):
        replayed(what, brute, file, random_schedule(rng, processes))


def try_search(what, file, least, words=()):
    """Compares `cpm search` with the least numbers of late steps: it finds the same kinds of states.

    A late step is a call of an entry or the `init` of a monitor.
    """
    status, out, _ = run(['search', file, '--json', *words], timeout=600)
    found = json.loads(out)
    if 'stopped' in found:
        return
    kinds = {'ended': found['ended'], 'stuck': found['stuck'], 'faulted': found['fault']}
    expect(f'{what}: kinds of cpm search', {kind for kind in kinds if kinds[kind]},
           set(least) & set(kinds))
    expect(f'{what}: exit of cpm search', status, 6 if found['fault'] else 5 if found['stuck'] else 0)
    for kind in ('stuck', 'faulted'):
        if kinds[kind]:
            late_steps = kinds[kind]['inits'] + len(kinds[kind]['calls'])
            expect(f'{what}: late steps until {kind}', late_steps, least[kind])


def try_servers(what, rng, brute, file, states):
    """Compares outcomes and searches in which random processes may wait in a queue forever."""
    processes = json.loads(run(['outcome', file, '--json'])[1])['processes']
    servers = rng.sample(processes, rng.randint(1, len(processes)))
    numbers = ','.join(str(server['process']) for server in servers)
    least = least_steps(brute, file, '--servers', numbers, '--states', states)
    what, words = f'{what}: servers {numbers}', ['--servers', ','.join(x['name'] for x in servers)]
    try_outcomes(what, file, [kind for kind in least if kind != 'faulted'], words)
    try_search(what, file, least, words)


def try_program(number, source, brute, folder, asked):
    """Compares all that is known of one program. Returns what its schedules do, or why it was left
    out."""
    file = folder / f'{number}.cp'
    file.write_text(source, encoding='latin-1')
    what, states = f'program {number}', str(asked.states)
    least = least_steps(brute, file, '--states', states)
    if isinstance(least, str):
        return 'refused' if least.startswith('refused') else least
    by_calls = least_steps(brute, file, '--by-calls')
    if by_calls != least:
        # A search by calls stops if some schedule never settles.
        expect(f'{what}: by calls', isinstance(by_calls, str) and 'forever' in by_calls, True)
    verdicts = [kind for kind in least if kind != 'faulted']
    try_outcomes(what, file, verdicts)
    try_found_schedules(what, brute, file, least, states)
    try_random_schedules(what, random.Random(number), brute, file)
    if asked.search:
        try_search(what, file, least)
        try_servers(what, random.Random(-number), brute, file, states)
    return ' or '.join(verdicts) or 'never still'


def programs(asked):
    """Sources with a number each: the seed of a random program."""
    if not asked.repository:
        seeds = range(asked.seed, asked.seed + asked.count)
        return [(seed, program(seed)) for seed in seeds]
    import front
    sources = front.texts_of_repository()
    return list(enumerate(source for source in sources if len(source) < MAX_LETTERS))


def main():
    parser = argparse.ArgumentParser(description=__doc__.split('\n')[0])
    parser.add_argument('program', nargs='?', default=running.PROGRAM)
    parser.add_argument('--count', type=int, default=2000)
    parser.add_argument('--seed', type=int, default=1)
    parser.add_argument('--repository', action='store_true')
    parser.add_argument('--states', type=int, default=100_000)
    parser.add_argument('--search', action='store_true')
    parser.add_argument('--quiet', action='store_true')
    asked = parser.parse_args()
    run.__defaults__ = (None, running.EXAMPLES, asked.program)
    sources = programs(asked)
    with tempfile.TemporaryDirectory() as name, concurrent.futures.ThreadPoolExecutor() as pool:
        folder = pathlib.Path(name)
        brute = build(folder)
        tries = pool.map(lambda pair: try_program(*pair, brute, folder, asked), sources)
        counts = collections.Counter(tries)
    for line in wrong:
        print(line)
    if not asked.quiet:
        print(f'{len(sources)} programs, {len(wrong)} disagreements')
        for ways, count in counts.most_common():
            print(f'{count:6} {ways}')
    return 1 if wrong else 0


if __name__ == '__main__':
    sys.exit(main())
