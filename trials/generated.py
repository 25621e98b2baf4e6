"""What the program answers to texts and orders that are made here: every beginning of a text, lawful orders, as many processes as there can be by
several plans, and the longest chain of askers."""
import pathlib
import random
import re
import tempfile

from running import expect, run

ORDERS = 200
ROUNDS, TURN, PROCESSES = 5, 2, 4
# How many monitors and processes stand in a row. One more process is the initial one, and one more monitor ends its turn, so that it asks last.
ROW = 254
COUNTERS = 7


def try_beginnings(text):
    """Checks each beginning of a text, which is refused for its spelling or its syntax, up to its last `.`, and each with a word after it that no text has."""
    with tempfile.TemporaryDirectory() as folder:
        file = pathlib.Path(folder) / 'text.cp'
        for length in range(len(text.rstrip())):
            file.write_text(text[:length])
            status, out, error = run(['check', file])
            cause, _, place = error.decode().strip().removeprefix('refused ').partition(' at ')
            is_right = cause[:1] == 'S' or cause in ('Y1', 'Y3') or (cause, place) == ('Y2', str(length))
            expect(f'{length} bytes', (status, out, is_right), (1, b'', True))
        for token in re.finditer(r"\w+|:=|'.'|\S", text):
            file.write_text(f'{text[:token.start()]} with')
            place = token.start() + 1
            expect(f'`with` at {place}', run(['check', file]), (1, b'', f'refused Y1 at {place}\n'.encode()))
        file.write_text(text)
        expect('the whole text', run(['check', file]), (0, b'accepted\n', b''))
    return length + 1


def lawful_round(chance):
    """The events of a lawful round: a process's kernel turn comes after its private steps and after the kernel turns of those before it."""
    left, kernel, events = [TURN] * PROCESSES, 0, []
    while kernel < PROCESSES:
        may_come = [('P', p) for p in range(kernel, PROCESSES) if left[p]] + [('K', kernel)] * (left[kernel] == 0)
        kind, process = chance.choice(may_come)
        events.append(f'{kind}{process + 1}')
        if kind == 'P':
            left[process] -= 1
        else:
            kernel += 1
    return ' '.join(events) + '\n'


def try_lawful_orders(text, due):
    """Replays a text in many lawful orders, which all give the report of as many rounds."""
    chance = random.Random(1975)
    orders = {''.join(lawful_round(chance) for _ in range(ROUNDS)) for _ in range(ORDERS)}
    with tempfile.TemporaryDirectory() as folder:
        file, order = pathlib.Path(folder) / 'text.cp', pathlib.Path(folder) / 'order'
        file.write_text(text)
        for events in orders:
            order.write_text(events)
            expect(f'the order {events}', run(['replay', file, order, '--turn', str(TURN)]), (0, due, b''))
    return len(orders)


def try_squarers(plans):
    """Runs 253 processes that square 6, add 1 to what a monitor counts and display the square, by each plan."""
    names = [f'v{k}' for k in range(2, 255)]
    text = f"""type m = monitor; var n: integer; procedure entry add; begin n := n + 1 end; begin end;
p = process(a: m); var x: integer; begin x := 6; x := x * x; a.add; display(x) end;
var g: m; {', '.join(names)}: p; begin init g, {', '.join(f'{name}(g)' for name in names)} end."""
    ended = ''.join(f"process {number} {name} ended\nout '36'\nvar x = 36\n" for number, name in enumerate(names, 2))
    due = f"rounds 3\nprocess 1 initial ended\nout ''\n{ended}monitor g free askers -\nvar n = 253\n".encode()
    with tempfile.TemporaryDirectory() as folder:
        file = pathlib.Path(folder) / 'text.cp'
        file.write_text(text)
        for plan in plans:
            expect(f'{plan}', run(['run', file, '--rounds', '3', '--turn', '300', *plan]), (0, due, b''))


def text_of_counters(waits=False):
    """A text whose processes count up to 10, 20 and so on, and call a monitor every ten iterations: what they compute in between is made several rounds at once.
    If asked to, they also wait for a tick every seven iterations."""
    names = [f'v{k}' for k in range(1, COUNTERS + 1)]
    wait = 'if x mod 7 = 0 then wait' if waits else ''
    return f"""type m = monitor; var n: integer; procedure entry add; begin n := n + 1 end; begin n := 0 end;
p = process(a: m; most: integer); var x: integer;
begin x := 0; while x < most do begin x := x + 1; if x mod 10 = 0 then a.add; {wait} end; display(x) end;
var g: m; {', '.join(names)}: p;
begin init g, {', '.join(f'{name}(g, {10 * k})' for k, name in enumerate(names, 1))} end."""


def try_counters(plans):
    """Runs counters by each plan, without and with a clock that they wait for: at the end each has written its number, and after any number of rounds the report
    is that of one worker, who makes one round after another."""
    for waits, clock in [(False, []), (True, ['--tick', '3'])]:
        with tempfile.TemporaryDirectory() as folder:
            file = pathlib.Path(folder) / 'text.cp'
            file.write_text(text_of_counters(waits))
            status, ended, error = run(['run', file, '--rounds', '300', '--turn', '3', '--workers', '1', *clock])
            lines = ended.decode().splitlines()
            written = [line for line in lines if line.startswith('out ')]
            expect('counters at the end', (status, error, written), (0, b'', ["out ''", *(f"out '{10 * k}'" for k in range(1, COUNTERS + 1))]))
            expect('calls of counters', f'var n = {sum(range(1, COUNTERS + 1))}' in lines, True)
            for rounds, turn in [(9, 2), (10, 2), (13, 2), (30, 1), (31, 3), (75, 1), (300, 3)]:
                words = ['run', file, '--rounds', str(rounds), '--turn', str(turn), *clock]
                single = run([*words, '--workers', '1'])
                for plan in plans:
                    expect(f'counters, {rounds} rounds of {turn} by {plan} {clock}', run([*words, *plan]), single)


def row_of_askers():
    """A text in which each of ROW processes holds the gate of its own monitor and asks for that of the process before it, but for the first, which stays
    inside its monitor. The initial process asks for the last gate."""
    numbers = range(1, ROW + 1)
    lines = ['type d = monitor; procedure entry e; begin end; begin end;',
             't1 = monitor; procedure entry e; begin cycle end end; begin end;',
             *(f't{k} = monitor(i: t{k - 1}); procedure entry e; begin i.e end; begin end;' for k in numbers[1:]),
             *(f'p{k} = process(a: t{k}); begin a.e end;' for k in numbers),
             'var x: integer; h: d;', *(f'g{k}: t{k}; b{k}: p{k};' for k in numbers)]
    items = ['h', 'g1', *(f'g{k}(g{k - 1})' for k in numbers[1:]), *(f'b{k}(g{k})' for k in numbers)]
    return '\n'.join([*lines, f"begin init {', '.join(items)}; x := 1; h.e; x := 2; g{ROW}.e end."])


def chain(asker, first):
    """The line of a process that asks for the gate that process `first` holds."""
    return f"chain {asker} {' '.join(map(str, range(first, 1, -1)))}\n"


def try_long_chain():
    """A chain is as long as the row of processes."""
    due = chain(1, ROW + 1) + ''.join(chain(asker, asker - 1) for asker in range(3, ROW + 2))
    with tempfile.TemporaryDirectory() as folder:
        file = pathlib.Path(folder) / 'text.cp'
        file.write_text(row_of_askers())
        status, out, error = run(['run', file, '--rounds', '3', '--turn', '10000', '--chains'])
    lines = ''.join(line for line in out.decode().splitlines(keepends=True) if line.startswith('chain '))
    expect('the longest chain', (status, lines, error), (0, due, b''))
