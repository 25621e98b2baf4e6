#!/usr/bin/env python3
"""Compares the places that `cpm outcome` prints with places that are known in another way.

    trials/places.py [PROGRAM] [--count N] [--seed N] [--quiet]

Each random text has one statement that stops a process, at a place that the generator knows, as it knows the calls that lead there: a fault of each kind, a `delay`, a call that asks for a
gate, a `wait`, an `init` that isn't reached. Others have assignments alone, which a run with `--turn 1` makes one a round. PROGRAM, or the variable CPM,
is the built program. It prints what is wrong and how many places agreed, with --quiet only what is wrong, and ends with status 0 if nothing was wrong.
"""
import argparse
import random
import re
import sys

import running
from running import expect, run, wrong

MARK = '@'
# The marks before the call of the procedure `go`, and before the call that leads into a class or a monitor.
GO, INTO = '#', '~'
MARKS = re.compile(r'@2?|#|~')
WORDS = {
    1: 'a value out of the range of its type in ',
    2: 'an index beyond the bounds in ',
    3: 'arithmetic beyond -32768..32767 in ',
    4: 'a zero divisor in ',
    5: 'a delay in a queue that has a process, ',
    6: 'a call of a component that is not initialised, ',
    7: 'init of a component that was initialised before, ',
    8: 'a case without a label that matches ',
    9: 'a function without a result, ',
}
# The number of a fault, a statement that has it, with a mark before the place that is printed, and the piece that is quoted.
FAULTS = [
    (1, '@b := 4 + 6', 'b := 4 + 6'),
    (1, '@h(4 + 6)', 'h(4 + 6)'),
    (2, '@v[9 + 1] := 0', 'v[9 + 1] := 0'),
    (2, 'j := 1 + @half(v[0 - 1])', 'half(v[0 - 1])'),
    (3, '@j := 30000 + 30000', 'j := 30000 + 30000'),
    (3, 'if @30000 + 30000 > 0 then begin j := 1 end', '30000 + 30000 > 0'),
    (3, 'while @30000 + 30000 > 0 do j := 1', '30000 + 30000 > 0'),
    (3, 'repeat j := 1 until @(30000 + 30000) > 0', '(30000 + 30000) > 0'),
    (3, 'j := 1 + @half(30000 + 30000)', 'half(30000 + 30000)'),
    (3, '@display(-30000 - 30000)', 'display(-30000 - 30000)'),
    (4, '@j := 7 div (1 - 1)', 'j := 7 div (1 - 1)'),
    (4, 'for @j := 1 to 7 mod 0 do i := 1', 'j := 1 to 7 mod 0'),
    (6, '@w.up', 'w.up'),
    (6, 'j := 1 + @w.seen(i)', 'w.seen(i)'),
    (8, 'case @4 + 1 of 1 : j := 1 ; 2 : i := 1 end', '4 + 1'),
    (9, 'j := 2 * nothing', 'nothing'),
]
# Faults that only the body of a process type can have.
BODY_FAULTS = [(7, 'init @u', 'u'), (7, 'init x0 , @u', 'u')]
VARIABLES = 'i , j , f0 , f1 , f2 : integer ; b : 1..9 ; v : array [1..9] of integer'
COUNTER = ('small = 1..9 ; counter = class ; var n : integer ; procedure entry up ; begin n := 1 - n end ; '
           'function entry seen(m : integer) : integer ; begin seen := n + m end ; begin n := 0 end ;')


def safe(rng, calls, depth=2):
    """A statement that ends without a fault. `calls` are simple statements that may stand in it."""
    simple = ['i := 3', 'j := i mod 5 + 1', 'b := 9', 'v[3] := j', 'display(j)', 'begin end', *calls]
    if depth == 0 or rng.random() < 0.5:
        return rng.choice(simple)
    part = lambda: safe(rng, calls, depth - 1)
    return rng.choice([
        lambda: f'begin {part()} ; {part()} end',
        lambda: f'if i = {rng.randrange(5)} then begin {part()} end',
        lambda: f'if j > {rng.randrange(5)} then begin {part()} end else {part()}',
        lambda: f'for f{depth} := 1 to {rng.randrange(4)} do {part()}',
        lambda: f'repeat {part()} until true',
        lambda: f'while j < -5 do {part()}',
        lambda: f'case 1 of 0 : {part()} ; 1 : {part()} end',
    ])()


def reached(rng, planted, calls, depth=3):
    """A statement that comes to the planted one."""
    if depth == 0 or rng.random() < 0.3:
        return planted
    part = lambda: safe(rng, calls, 1)
    inner = reached(rng, planted, calls, depth - 1)
    return rng.choice([
        f'begin {part()} ; {inner} ; {part()} end',
        f'if i = i then begin {inner} end',
        f'if i <> i then begin {part()} end else {inner}',
        f'for f0 := 2 downto 1 do begin {part()} ; {inner} end',
        f'repeat {part()} ; {inner} until true',
        f'while true do begin {inner} end',
        f'cycle {part()} ; {inner} end',
        f'case 4 div 2 of 1 : {part()} ; 2 : {inner} end',
    ])


def process(rng, parameters, planted, calls, where):
    """A process type `p` that comes to the planted statement: in its body, in the procedure `go`, or in that entry of a class with a right to its monitor."""
    calls = ['u.up', 'j := u.seen(2)', 'j := half(4)', 'h(3)', *calls]
    go = f'go ; begin {reached(rng, planted, [])} end ;'
    front = f'procedure {go}' if where == 'procedure' else ''
    last = {'body': planted, 'procedure': f'{GO}go', 'class': f'begin init via(k) ; {GO}via.go end'}[where]
    helper, via = '', ''
    if where == 'class':
        helper = f'helper = class(k : m) ; var {VARIABLES} ; procedure entry {go} begin i := 0 ; j := 0 end ; '
        via = ' ; via : helper'
    return (f'{helper}p = process{parameters} ; var {VARIABLES} ; u , x0 , w : counter{via} ; '
            'procedure h(n : small) ; begin j := n end ; '
            'function half(n : integer) : integer ; begin half := n div 2 end ; '
            f'function @2nothing : integer ; begin if 1 = 2 then nothing := 1 end ; {front} '
            f'begin i := 0 ; j := 0 ; init u ; {safe(rng, calls)} ; {reached(rng, last, calls)} ; {safe(rng, calls)} end ;')


def laid_out(rng, text):
    """The text with other blanks, and comments, where it has blanks."""
    blanks = [' ', ' ', ' ', ' ', '  ', '\n', '\n    ', ' "note; end" ']
    return ''.join(rng.choice(blanks) if c == ' ' else c for c in text)


def marked(text, mark):
    """The text without marks, and the line and column of one of them."""
    at = MARKS.sub(lambda m: '\0' if m.group() == mark else '', text).index('\0')
    front = MARKS.sub('', text)[:at]
    return f'{front.count(chr(10)) + 1}:{at - front.rfind(chr(10))}'


def tell(what, text, words, process_line, mark=MARK):
    """Compares the line of a process with the wanted one, which has the places of the marks for `@`, `#` and `~`."""
    clean = MARKS.sub('', text)
    _, out, told = run(['outcome', '-', *words], stdin=None, input=clean.encode())
    wanted = process_line.replace('@', marked(text, mark))
    for call in (GO, INTO):
        if call in wanted:
            wanted = wanted.replace(call, marked(text, call))
    lines = (out + told).decode('latin-1').split('\n')
    expect(f'{what}:\n{clean}\n', wanted if wanted in lines else lines, wanted)


def try_fault(rng):
    """A fault in a process, in one of its procedures, in a class or in a monitor."""
    where = rng.choice(['body', 'body', 'procedure'])
    number, planted, piece = rng.choice(FAULTS + (BODY_FAULTS if where == 'body' else []))
    mark = '@2' if number == 9 else MARK
    text = laid_out(rng, f'type {COUNTER} {process(rng, "", planted, [], where)} var a : p ; begin init a end.')
    words = ['--turn', str(rng.choice([1, 7, 100]))]
    tell('a fault', text, words, f'process 2 a: fault {number} at @: {WORDS[number]}`{piece}`', mark)


def try_fault_inside(rng):
    """A fault inside a class or a monitor."""
    sort = rng.choice(['class', 'monitor'])
    number, planted, piece = rng.choice([f for f in FAULTS if f[0] < 6 and 'h(' not in f[1] and 'half' not in f[1]])
    inner = reached(rng, planted, [])
    owner, right, of = (('(k : m)', '', 'k.e') if sort == 'monitor' else ('', 'k : m ;', 'init k ; k.e'))
    text = laid_out(rng, f'type m = {sort} ; var {VARIABLES} ; procedure entry e ; begin {inner} end ; begin i := 0 ; j := 0 end ; '
                    f'p = process{owner} ; var {right} z : integer ; begin z := 1 ; {of} end ; '
                    + ('var k : m ; a : p ; begin init k , a(k) end.' if sort == 'monitor' else 'var a : p ; begin init a end.'))
    tell('a fault inside', text, [], f'process 2 a: fault {number} at @: {WORDS[number]}`{piece}`')


def calls(*marks):
    """What the line of a process that waits has for calls with these marks, outermost first."""
    return ''.join(f', {"then " if number else "called "}at {mark}' for number, mark in enumerate(marks))


def try_delay(rng):
    """A delay in a queue, or in a queue of an array, that an entry continues or none does."""
    index = rng.choice(['', f'[{rng.randint(1, 3)}]'])
    of = 'array [1..3] of queue' if index else 'queue'
    goes = rng.random() < 0.5
    go = f'procedure entry go ; begin continue(q{index}) end ;' if goes else ''
    monitor = (f'm = monitor ; var {VARIABLES} ; q : {of} ; procedure entry rest ; begin {reached(rng, f"@delay(q{index})", [])} end ; {go} '
               'begin i := 0 ; j := 0 end ;')
    where = rng.choice(['body', 'procedure', 'class'])
    helps = goes and rng.random() < 0.5
    helper = reached(rng, 'k.go', []) if helps else safe(rng, [])
    text = laid_out(rng, f'type {COUNTER} {monitor} {process(rng, "(k : m)", f"{INTO}k.rest", [], where)} r = process(k : m) ; var {VARIABLES} ; '
                    f'begin i := 0 ; j := 0 ; wait ; {helper} end ; var k : m ; a : p ; b : r ; begin init k , a(k) , b(k) end.')
    who = 'which b can call' if helps else 'which no other process calls'
    why = f'only k.go continues it, {who}' if goes else 'nothing continues it'
    at = calls(*([] if where == 'body' else [GO]), INTO)
    tell('a delay', text, ['--limit', '500', '--tick', '100000'], f'process 2 a: delayed in k.q{index} at @{at}; {why}')


def try_asking(rng):
    """A call of a monitor whose gate a process keeps that has faulted."""
    planted = rng.choice(['@k.step(2)', 'j := 1 + @k.read(i + 1) * 2', 'if @k.read(2) > 0 then begin i := 1 end', 'h(@k.read(2))'])
    monitor = ('m = monitor ; var x : integer ; procedure entry stop ; begin x := 1 div 0 end ; procedure entry step(n : integer) ; begin x := n end ; '
               'function entry read(n : integer) : integer ; begin read := n end ; begin x := 0 end ;')
    where = rng.choice(['body', 'procedure'])
    text = laid_out(rng, f'type {COUNTER} {monitor} r = process(k : m) ; begin k.stop end ; {process(rng, "(k : m)", planted, [], where)} '
                    'var k : m ; c : r ; a : p ; begin init k , c(k) , a(k) end.')
    at = calls(GO) if where == 'procedure' else ''
    tell('a call that asks', text, ['--turn', str(rng.choice([1, 100]))], f'process 3 a: asks for k at @{at}, held by c, which has faulted')


def try_waiting(rng):
    """A process that waits for the clock."""
    where = rng.choice(['body', 'procedure'])
    text = laid_out(rng, f'type {COUNTER} {process(rng, "", "@wait", [], where)} var a : p ; begin init a end.')
    at = calls(GO) if where == 'procedure' else ''
    tell('a wait', text, ['--limit', '500', '--tick', '100000'], f'process 2 a: waits for the clock at @{at}')


def try_unstarted(rng):
    """A process whose `init` isn't reached."""
    text = laid_out(rng, f'type p = process ; begin end ; var {VARIABLES} ; a , c : p ; begin i := 0 ; j := 0 ; {safe(rng, [])} ; '
                    f'if 1 = 2 then begin {reached(rng, rng.choice(["init @a", "init c , @a"]), [])} end end.')
    tell('an init that is not reached', text, [], 'process 2 a: never started; only the init at @ starts it')


def try_steps(rng):
    """Assignments alone: with turns of one step, a round makes one."""
    count = rng.randint(1, 8)
    after = rng.randint(0, count - 1)
    statements = [('@' if k == after else '') + rng.choice(['i := 1', 'v[2] := i', 'display(3)', 'j := j + 1 - i']) for k in range(count)]
    text = laid_out(rng, f'var {VARIABLES} ; begin {" ; ".join(statements)} end.')
    tell('a step', text, ['--turn', '1', '--limit', str(after)], 'process 1 initial: ready at @')


def main():
    parser = argparse.ArgumentParser(description=__doc__.split('\n')[0])
    parser.add_argument('program', nargs='?', default=running.PROGRAM)
    parser.add_argument('--count', type=int, default=1000)
    parser.add_argument('--seed', type=int, default=1)
    parser.add_argument('--quiet', action='store_true')
    asked = parser.parse_args()
    run.__defaults__ = (None, running.EXAMPLES, asked.program)
    rng = random.Random(asked.seed)
    ways = [try_fault, try_fault, try_fault, try_fault_inside, try_delay, try_asking, try_waiting, try_unstarted, try_steps]
    for number in range(asked.count):
        ways[number % len(ways)](rng)
    for line in wrong:
        print(line)
    if not asked.quiet:
        print(f'{asked.count - len(wrong)} of {asked.count} places agreed')
    return 1 if wrong else 0


if __name__ == '__main__':
    sys.exit(main())
