"""Makes random accepted programs that are small enough to try all their schedules.

A program has two to four processes, the initial one among them, which call monitors. Monitors delay
and continue, call monitors that were defined before them, and hold classes. Loops are short, and
values stay small. Any fault may occur.
"""
import random
from typing import NamedTuple


# Entries of a monitor that is taken and put back by turns, or that counts.
LOCKS = [
    ('  procedure entry take; begin if b then delay(q); b := true end;', '  procedure entry put; begin b := false; continue(q) end;'),
    ('  procedure entry take; begin if y = 0 then delay(q) else y := y - 1 end;',
     '  procedure entry put; begin if empty(q) then y := y + 1 else continue(q) end;'),
    ('  procedure entry take; begin while b do delay(q); b := true end;', '  procedure entry put; begin b := not b; continue(q) end;'),
]


class Routine(NamedTuple):
    """A routine as its callers see it. Each parameter is `value`, `small`, `var`, `pair` or `var pair`."""
    name: str
    parameters: tuple
    is_function: bool


class Type(NamedTuple):
    """A system type: `monitor`, `class` or `process`, its rights by type, and its entries."""
    name: str
    sort: str
    rights: tuple
    entries: tuple


class Scope(NamedTuple):
    """What a statement may name.

    `numbers` are integers and variables of type small; `integers` and `smalls` are those of each
    type to which a value may be assigned. A pair is an array of two integers, and `pair_values` are
    value parameters. `calls` are routines by the name with which they are called.
    """
    numbers: tuple
    integers: tuple
    smalls: tuple
    truths: tuple
    pairs: tuple
    calls: tuple
    queues: tuple = ()
    pair_values: tuple = ()
    may_continue: bool = False
    counters: tuple = ('l0', 'l1')


class Maker:
    """Makes the source of one program."""

    def __init__(self, seed):
        self.rng = random.Random(seed)
        self.types = []
        self.loops = 0

    def chance(self, of):
        return self.rng.random() < of

    # ---- Expressions

    def call(self, scope, is_function, depth):
        """A call of a routine of this sort, or none."""
        wanted = {'pair', 'var pair'} if not scope.pairs else set()
        routines = [routine for routine in scope.calls if routine.is_function == is_function and not wanted & set(routine.parameters)]
        if not routines:
            return None
        routine = self.rng.choice(routines)
        arguments = [self.argument(scope, sort, depth) for sort in routine.parameters]
        return routine.name + (f"({', '.join(arguments)})" if arguments else '')

    def argument(self, scope, sort, depth):
        if sort == 'var':
            return self.rng.choice([*scope.integers, *scope.integers, *(f'{pair}[{self.index(scope)}]' for pair in scope.pairs)])
        if sort in ('pair', 'var pair'):
            return self.rng.choice(scope.pairs if sort == 'var pair' else scope.pairs + scope.pair_values)
        if sort == 'small':
            return str(self.rng.randrange(3)) if self.chance(0.95) else self.number(scope, depth - 1)
        return self.number(scope, depth - 1)

    def number(self, scope, depth=2):
        """An expression of type integer."""
        if depth <= 0 or self.chance(0.4):
            return self.rng.choice([*scope.numbers, *scope.numbers, str(self.rng.randrange(4))])
        if self.chance(0.25):
            made = self.call(scope, True, depth)
            if made:
                return made
        if scope.pairs + scope.pair_values and self.chance(0.2):
            return f'{self.rng.choice(scope.pairs + scope.pair_values)}[{self.index(scope)}]'
        a, b = self.number(scope, depth - 1), self.number(scope, depth - 1)
        return self.rng.choice([f'({a} + {b})', f'({a} - {b})', f'({a} * {b}) mod 4', f'{a} mod 3', f'abs({a})', f'pred({a})',
                                f'({a} + {b}) mod 3', f'(7 div {b})' if self.chance(0.1) else f'({a} + 1)'])

    def index(self, scope):
        """An index of a pair, seldom beyond its bounds."""
        return self.rng.choice(['0', '1', f'abs({self.rng.choice(scope.numbers)}) mod 2' if self.chance(0.9) else self.rng.choice(scope.numbers)])

    def truth(self, scope, depth=2):
        """An expression of type boolean."""
        if scope.truths and self.chance(0.35):
            return self.rng.choice(scope.truths)
        if scope.queues and self.chance(0.3):
            return f'empty({self.queue(scope)})'
        if depth <= 0 or self.chance(0.5):
            return f"({self.number(scope, 1)} {self.rng.choice(['=', '<>', '<', '>', '<=', '>='])} {self.number(scope, 0)})"
        a, b = self.truth(scope, depth - 1), self.truth(scope, depth - 1)
        return self.rng.choice([f'not {a}', f'({a} & {b})', f'({a} or {b})'])

    def queue(self, scope):
        name = self.rng.choice(scope.queues)
        return f'{name}[{self.index(scope)}]' if name.startswith('qs') else name

    # ---- Statements

    def assignment(self, scope):
        if scope.truths and self.chance(0.3):
            return f'{self.rng.choice(scope.truths)} := {self.truth(scope)}'
        if scope.pairs and self.chance(0.25):
            pair = self.rng.choice(scope.pairs)
            return self.rng.choice([f'{pair} := {self.rng.choice(scope.pairs + scope.pair_values)}', f'{pair}[{self.index(scope)}] := {self.number(scope)}'])
        if self.chance(0.3):
            value = str(self.rng.randrange(3)) if self.chance(0.5) else f'abs({self.number(scope)}) mod 3'
            return f'{self.rng.choice(scope.smalls)} := {self.number(scope) if self.chance(0.05) else value}'
        return f'{self.rng.choice(scope.integers)} := {self.number(scope)}'

    def waiting(self, scope):
        """A delay or a continue."""
        queue = self.queue(scope)
        if scope.may_continue and self.chance(0.3):
            return f'if {self.truth(scope)} then continue({queue})'
        condition = f'empty({queue}) & {self.truth(scope)}' if self.chance(0.6) else self.truth(scope)
        return f'if {condition} then delay({queue})' if self.chance(0.9) else f'delay({queue})'

    def loop(self, scope, depth):
        self.loops += 1
        counter = scope.counters[self.loops % 2]
        body = self.statement(scope, depth - 1)
        count = self.rng.randint(1, 2)
        return self.rng.choice([
            lambda: f'for {counter} := 1 to {count} do {body}',
            lambda: f'for {counter} := {count} downto 1 do {body}',
            lambda: f'begin {counter} := 0; while {counter} < {count} do begin {counter} := {counter} + 1; {body} end end',
            lambda: f'begin {counter} := 0; repeat {counter} := {counter} + 1; {body} until {counter} >= {count} end',
        ])()

    def choice(self, scope, depth):
        a, b = self.statement(scope, depth - 1), self.statement(scope, depth - 1)
        if self.chance(0.2):
            otherwise = '' if self.chance(0.1) else f'; 2, -2: {b}'
            return f'case {self.number(scope)} mod 3 of 0: begin {a} end; 1, -1: begin end{otherwise} end'
        other = f' else {b}' if self.chance(0.5) else ''
        return f'if {self.truth(scope)} then begin {a} end{other}'

    def statement(self, scope, depth=1):
        if scope.queues and self.chance(0.3):
            return self.waiting(scope)
        if self.chance(0.4 if scope.queues else 0.6):
            made = self.taking(scope) if self.chance(0.4) else self.call(scope, False, 1)
            if made:
                return made
        if depth > 0 and self.chance(0.35):
            return self.loop(scope, depth) if self.chance(0.5) else self.choice(scope, depth)
        return 'display(1)' if self.chance(0.05) else self.assignment(scope)

    def taking(self, scope):
        """A statement between `take` and `put` of a monitor that has them, or none."""
        takes = [routine.name for routine in scope.calls if routine.name.endswith('.take')]
        if not takes:
            return None
        take = self.rng.choice(takes)
        return f"begin {take}; {self.statement(scope)}; {take.replace('take', 'put')} end"

    def statements(self, scope, least, most, last=()):
        count = self.rng.randint(least, most)
        return '; '.join([*(self.statement(scope) for _ in range(count)), *last])

    # ---- Routines

    def routine(self, scope, name, is_entry, in_monitor):
        """A routine of a component, and what its callers see."""
        is_function = self.chance(0.3)
        sorts = ['value', 'value', 'value', 'small', 'small', 'pair', *([] if is_function else ['var', 'var', 'var pair'])]
        parameters = tuple(self.rng.choice(sorts) for _ in range(self.rng.choice([0, 0, 1, 2])))
        names = [f'o{k}' for k in range(len(parameters))]
        kinds = {'value': '{}: integer', 'small': '{}: small', 'var': 'var {}: integer', 'pair': '{}: pair', 'var pair': 'var {}: pair'}
        of = {wanted: tuple(p for p, sort in zip(names, parameters) if sort == wanted) for wanted in kinds}
        heading = '; '.join(kinds[sort].format(p) for p, sort in zip(names, parameters))
        inner = scope._replace(numbers=(*scope.numbers, *of['value'], *of['small'], *of['var'], 'i'), integers=(*scope.integers, *of['var'], 'i'),
                               pairs=scope.pairs + of['var pair'], pair_values=of['pair'], counters=('k0', 'k1'), may_continue=is_entry and in_monitor)
        last = []
        if is_function:
            last.append(f'if {self.truth(inner)} then {name} := 1' if self.chance(0.05) else f'{name} := {self.number(inner)} mod 3')
        if inner.may_continue and self.chance(0.8):
            last.append(f'continue({self.queue(inner)})')
        body = self.statements(inner, 1, 3, last)
        words = f"{'function' if is_function else 'procedure'} {'entry ' if is_entry else ''}{name}{f'({heading})' if heading else ''}"
        text = f"  {words}{': integer' if is_function else ''};\n  var i, k0, k1: integer; begin i := 0; {body} end;"
        return text, Routine(name, parameters, is_function)

    def entries_of(self, name, of):
        return tuple(routine._replace(name=f'{name}.{routine.name}') for routine in of.entries)

    # ---- Components

    def rights(self, sorts, most):
        known = [t for t in self.types if t.sort in sorts]
        return self.rng.sample(known, min(len(known), self.rng.randint(0, most)))

    def classes(self):
        """A class variable of a component, by its name and type, or none."""
        known = [t for t in self.types if t.sort == 'class']
        return [('c', self.rng.choice(known))] if known and self.chance(0.5) else []

    def init_class(self, rights, name, of):
        """`init` of a class variable, or none if its component lacks a right that the class needs."""
        arguments = ['1']
        for right in of.rights:
            mine = [r for r, t in rights if t.name == right]
            if not mine:
                return None
            arguments.append(mine[0])
        return f"init {name}({', '.join(arguments)})"

    def component(self, number, sort):
        """A monitor or class type."""
        name = f'{sort[0]}{number}'
        rights = [(f'r{k}', t) for k, t in enumerate(self.rights(['monitor'] if sort == 'monitor' or self.chance(0.5) else ['monitor', 'class'], 1))]
        held = [(x, t) for x, t in self.classes() if self.init_class(rights, x, t)]
        calls = sum((self.entries_of(x, t) for x, t in [*rights, *held]), ())
        queues = (('q', 'qs') if self.chance(0.3) else ('q',)) if sort == 'monitor' else ()
        scope = Scope(('x', 'y', 'n'), ('y',), ('x',), ('b',), ('a',) if self.chance(0.4) else (), calls, queues)
        texts, entries = [], []
        if self.chance(0.3):
            text, own = self.routine(scope, 'h', False, sort == 'monitor')
            texts.append(text)
            scope = scope._replace(calls=scope.calls + (own,))
        if sort == 'monitor' and self.chance(0.4):
            texts += self.rng.choice(LOCKS)
            entries += [Routine('take', (), False), Routine('put', (), False)] * 2
        for k in range(self.rng.randint(1, 3) if not entries else self.rng.randint(0, 1)):
            text, entry = self.routine(scope, f'e{k}', True, sort == 'monitor')
            texts.append(text)
            entries.append(entry)
        inits = [self.init_class(rights, x, t) for x, t in held if not self.chance(0.05)]
        start = self.statements(scope._replace(queues=()), 0, 1, ['b := true'] if self.chance(0.5) else [])
        variables = ['x: small; y: integer; b: boolean; a: pair; l0, l1: integer;', *(f'{x}: {t.name};' for x, t in held)]
        variables += {0: [], 1: ['q: queue;'], 2: ['q: queue; qs: array [0..1] of queue;']}[len(queues)]
        parameters = '; '.join(['n: integer', *(f'{x}: {t.name}' for x, t in rights)])
        self.types.append(Type(name, sort, tuple(t.name for _, t in rights), tuple(entries)))
        body = '; '.join(['y := n', *inits, *([start] if start else [])])
        return '\n'.join([f'{name} = {sort}({parameters});', f"  var {' '.join(variables)}", *texts, f'  begin {body} end;'])

    def process(self, number):
        name = f'p{number}'
        monitors = [t for t in self.types if t.sort == 'monitor']
        rights = [(f'r{k}', t) for k, t in enumerate(self.rng.choices(monitors, k=self.rng.randint(1, 2)))]
        held = [(x, t) for x, t in self.classes() if self.init_class(rights, x, t)]
        calls = sum((self.entries_of(x, t) for x, t in [*rights, *rights, *held]), ())
        scope = Scope(('x', 'y', 'n'), ('y',), ('x',), ('b',), ('a',) if self.chance(0.4) else (), calls)
        texts = []
        if self.chance(0.3):
            text, own = self.routine(scope, 'h', False, False)
            texts.append(text)
            scope = scope._replace(calls=scope.calls + (own,))
        inits = [self.init_class(rights, x, t) for x, t in held if not self.chance(0.05)]
        steps = self.statements(scope, 2, 4)
        body = '; '.join([*inits, f'cycle {steps} end' if self.chance(0.1) else steps])
        variables = ['x: small; y: integer; b: boolean; a: pair; l0, l1: integer;', *(f'{x}: {t.name};' for x, t in held)]
        parameters = '; '.join(['n: integer', *(f'{x}: {t.name}' for x, t in rights)])
        self.types.append(Type(name, 'process', tuple(t.name for _, t in rights), ()))
        return '\n'.join([f'{name} = process({parameters});', f"  var {' '.join(variables)}", *texts, f'  begin {body} end;'])

    # ---- The source

    def instances(self):
        """The monitors and processes by name and type, in an order in which their rights come first."""
        monitors = [(f'v{k}', t) for k, t in enumerate(t for t in self.types if t.sort == 'monitor')]
        if self.chance(0.4):
            monitors.append((f'v{len(monitors)}', self.rng.choice(monitors)[1]))
        kinds = [t for t in self.types if t.sort == 'process']
        count = self.rng.choice([1, 2, 2, 2, 2, 3, 3])
        return monitors, [(f'w{k}', self.rng.choice(kinds)) for k in range(count)]

    def init(self, name, of, monitors):
        arguments = [str(self.rng.randrange(3))]
        for right in of.rights:
            arguments.append(self.rng.choice([x for x, t in monitors if t.name == right]))
        return f"init {name}({', '.join(arguments)})"

    def initial(self, monitors, processes):
        """The statements of the initial process. One of them is seldom left out, doubled or moved."""
        steps = [self.init(x, t, monitors) for x, t in [*monitors, *processes]]
        calls = sum((self.entries_of(x, t) for x, t in monitors), ())
        scope = Scope(('x', 'y'), ('y',), ('x',), ('b',), (), calls)
        for _ in range(self.rng.choice([0, 0, 1, 1, 2])):
            steps.insert(len(steps) if self.chance(0.7) else self.rng.randint(len(monitors), len(steps)), self.statement(scope))
        if self.chance(0.06):
            steps.pop(self.rng.randrange(len(steps)))
        if self.chance(0.04):
            steps.append(self.rng.choice(steps))
        if self.chance(0.1):
            a, b = self.rng.randrange(len(steps)), self.rng.randrange(len(steps))
            steps[a], steps[b] = steps[b], steps[a]
        return ';\n  '.join(steps)

    def source(self):
        sorts = [*self.rng.choice([['monitor'], ['monitor', 'monitor'], ['class', 'monitor'], ['monitor', 'class'], ['class', 'monitor', 'monitor'],
                                   ['monitor', 'class', 'monitor'], ['monitor', 'class', 'class', 'monitor']])]
        parts = [self.component(k, sort) for k, sort in enumerate(sorts)]
        parts += [self.process(len(sorts) + k) for k in range(self.rng.randint(1, 2))]
        monitors, processes = self.instances()
        variables = [f'{x}: {t.name};' for x, t in [*monitors, *processes]]
        return '\n'.join(['type small = 0..2; pair = array [0..1] of integer;', *parts, f"var x: small; y, l0, l1: integer; b: boolean; {' '.join(variables)}",
                          f'begin\n  {self.initial(monitors, processes)}\nend.', ''])


def program(seed):
    """The source of a random program."""
    return Maker(seed).source()
