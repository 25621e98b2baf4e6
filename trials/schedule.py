#!/usr/bin/env python3
"""schedule.py [JOBS]: estimates from docs/minutes.csv how long `rt ci` and `trials/prove.py` take.

It prints the processor time, the wall-clock time with so many jobs (4), and the chain of crates
that takes the longest. It begins tasks as `rt ci` does: first the proofs and tests whose chain of
crates above has the most lines, and edits when no proof is ready. A crate with several edits is
proved once more for them. What `rt ci` takes to begin, to hash and to run what it built isn't
included: some five minutes. A crate without minutes in the table counts as none, and is named.
"""
import collections
import csv
import heapq
import pathlib
import sys

ROOT = pathlib.Path(__file__).resolve().parent.parent
TABLE = ROOT / 'docs' / 'minutes.csv'
# Numbers of lines and edits, and minutes of processor time. `trials/minutes.py --csv` writes them.
COLUMNS = ('crate', 'code', 'proofs', 'edits', 'proof_minutes', 'test_minutes', 'edit_minutes')
Task = collections.namedtuple('Task', 'after lines minutes')
# The part of the minutes of a crate's edits that the first of several takes, a proof of the crate.
SEED = 0.6


def read_table(file=TABLE):
    """The row of each crate, by name, with a number in each column."""
    with file.open(newline='') as lines:
        return {row.pop('crate'): {key: float(text or 0) for key, text in row.items()}
                for row in csv.DictReader(lines)}


def libraries():
    """The crates of the repository that each crate uses, lowest first."""
    lines = (ROOT / 'crates.txt').read_text().splitlines()
    lines = [line.partition(':') for line in lines if line and not line.startswith('#')]
    uses = {name: words.split() for name, _, words in lines}
    uses = {name: [it for it in words if it in uses] for name, words in uses.items()}
    order = {}
    while len(order) < len(uses):
        order |= {name: below for name, below in uses.items() if order.keys() >= set(below)}
    return order


def crates_of(program, uses):
    """A program and all crates below it."""
    found, left = set(), [program]
    while left:
        name = left.pop()
        if name not in found:
            found.add(name)
            left += uses[name]
    return found


def tasks_of_edits(name, row, proof):
    """The edits of a crate. If there are several, a second proof of the crate comes first."""
    edits, minutes = int(row['edits']), row['edit_minutes']
    if edits == 1:
        yield (name, 'edits', 0), Task([(name, 'proof')], row['code'], minutes)
    if edits > 1:
        seed = min(row['proof_minutes'], SEED * minutes)
        yield (name, 'seed'), Task(proof.after, 0, seed)
        for number in range(edits + 1):
            after = [(name, 'proof'), (name, 'seed')]
            yield (name, 'edits', number), Task(after, row['code'], (minutes - seed) / (edits + 1))


def tasks_of(rows, uses):
    """All tasks: the proof of each crate, its tests and its edits."""
    tasks, others = {}, {}
    for name, below in uses.items():
        row = rows.get(name) or dict.fromkeys(COLUMNS, 0)
        proof = Task([(it, 'proof') for it in below], row['code'], row['proof_minutes'])
        tasks[name, 'proof'] = proof
        if row['test_minutes']:
            others[name, 'tests'] = Task(proof.after, row['code'], row['test_minutes'])
        others.update(tasks_of_edits(name, row, proof))
    return tasks | others


def chains(tasks, cost):
    """The cost of each task with the most expensive chain of tasks that wait for it."""
    behind = dict.fromkeys(tasks, 0)
    for key in reversed(tasks):
        behind[key] += cost(tasks[key])
        for before in tasks[key].after:
            behind[before] = max(behind[before], behind[key])
    return behind


def wall_clock(tasks, jobs):
    """The minutes until all tasks are done."""
    behind = chains(tasks, lambda task: task.lines)
    left = sorted(tasks, key=lambda key: (key[1] in ('edits', 'seed'), -behind[key]))
    done, running, now = set(), [], 0
    while left or running:
        ready = [key for key in left if done.issuperset(tasks[key].after)]
        for key in ready[:jobs - len(running)]:
            left.remove(key)
            heapq.heappush(running, (now + tasks[key].minutes, key))
        now, key = heapq.heappop(running)
        done.add(key)
    return now


def longest_chain(tasks):
    """The chain of proofs that takes the longest, one after another."""
    behind = chains(tasks, lambda task: task.minutes)
    key, chain = max(tasks, key=behind.get), []
    while key:
        chain.append(key)
        key = max((it for it in tasks if key in tasks[it].after), key=behind.get, default=None)
    return chain


def print_times(what, tasks, jobs):
    """Prints the processor time of these tasks, and their wall-clock time."""
    total = sum(task.minutes for task in tasks.values())
    clock = wall_clock(tasks, jobs)
    print(f'{what}: {total:.0f} minutes of processor time, {clock:.0f} wall-clock with {jobs} jobs')


def main(jobs=4):
    rows, uses = read_table(), libraries()
    tasks = tasks_of(rows, uses)
    below = crates_of('cpm', uses)
    proofs = {key: it for key, it in tasks.items() if key[1] == 'proof' and key[0] in below}
    chain = longest_chain(tasks)
    print_times('rt ci', tasks, int(jobs))
    print_times('cpm without tests and edits', proofs, int(jobs))
    print(f'longest chain, {sum(tasks[key].minutes for key in chain):.0f} minutes:',
          ' '.join(f'{key[0]} {tasks[key].minutes:.1f}' for key in chain))
    missing = [name for name in uses if name not in rows or not rows[name]['proof_minutes']]
    if missing:
        print('without minutes:', ' '.join(missing))


if __name__ == '__main__':
    main(*sys.argv[1:])
