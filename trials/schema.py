#!/usr/bin/env python3
"""Validates the objects that answers show against docs/cpm.schema.json.

    trials/schema.py [--quiet]

It reads the lines of trials/answers that are whole objects with a `format`, and knows the words of JSON Schema that the schema uses. Any other word is a
mistake. It also changes each object in small ways, which the schema has to refuse. It prints what is wrong, and fails if anything is, or if fewer than LEAST
objects were found.
"""
import copy
import json
import pathlib
import re
import sys

ROOT = pathlib.Path(__file__).resolve().parent.parent
LEAST = 30
TYPES = {'object': dict, 'array': list, 'string': str, 'boolean': bool, 'null': type(None), 'integer': int}
SILENT = {'$schema', 'title', '$defs'}
# Fields that objects can't lack, and fields that are numbers.
NEEDED = {'format', 'verdict', 'round', 'name', 'change', 'processes', 'accepted', 'notes', 'violations', 'ended', 'states'}
COUNTS = {'round', 'states', 'transitions'}


def is_of_type(value, name):
    return isinstance(value, TYPES[name]) and not (name == 'integer' and isinstance(value, bool))


class Validator:
    """Validates values against a schema. Each method yields what is wrong."""

    def __init__(self, schema):
        self.schema = schema

    def mistakes(self, schema, value, path='$'):
        for word, wanted in schema.items():
            if word in SILENT or word == 'properties' and not isinstance(value, dict):
                continue
            name = {'$ref': 'ref', 'const': 'constant', 'enum': 'enumeration', 'oneOf': 'one_of'}.get(word, word)
            yield from getattr(self, f'in_{name}')(wanted, value, path, schema)

    def in_ref(self, wanted, value, path, _):
        yield from self.mistakes(self.schema['$defs'][wanted.removeprefix('#/$defs/')], value, path)

    def in_constant(self, wanted, value, path, _):
        if value != wanted or type(value) is not type(wanted):
            yield f'{path}: {value!r} is not {wanted!r}'

    def in_enumeration(self, wanted, value, path, _):
        if value not in wanted:
            yield f'{path}: {value!r} is none of {wanted}'

    def in_one_of(self, wanted, value, path, _):
        fits = [part for part in wanted if not any(self.mistakes(part, value, path))]
        if len(fits) != 1:
            yield f'{path}: fits {len(fits)} of {len(wanted)} forms'

    def in_type(self, wanted, value, path, _):
        names = wanted if isinstance(wanted, list) else [wanted]
        if not any(is_of_type(value, name) for name in names):
            yield f'{path}: {value!r} is no {wanted}'

    def in_required(self, wanted, value, path, _):
        if isinstance(value, dict):
            yield from (f'{path}: {name} is missing' for name in wanted if name not in value)

    def in_properties(self, wanted, value, path, _):
        for name, part in value.items():
            if name in wanted:
                yield from self.mistakes(wanted[name], part, f'{path}.{name}')

    def in_additionalProperties(self, wanted, value, path, schema):
        if isinstance(value, dict) and not wanted:
            yield from (f'{path}: {name} is unknown' for name in value if name not in schema['properties'])

    def in_items(self, wanted, value, path, _):
        if isinstance(value, list):
            for index, item in enumerate(value):
                yield from self.mistakes(wanted, item, f'{path}[{index}]')

    def in_minItems(self, wanted, value, path, _):
        if isinstance(value, list) and len(value) < wanted:
            yield f'{path}: fewer than {wanted} items'

    def in_minimum(self, wanted, value, path, _):
        if is_of_type(value, 'integer') and value < wanted:
            yield f'{path}: {value} is less than {wanted}'

    def in_maximum(self, wanted, value, path, _):
        if is_of_type(value, 'integer') and value > wanted:
            yield f'{path}: {value} is more than {wanted}'

    def in_pattern(self, wanted, value, path, _):
        if isinstance(value, str) and not re.search(wanted, value):
            yield f'{path}: {value!r} is not like {wanted}'


def spoilt(found):
    """Objects that are nearly this one, and that no schema of it fits: without a field, and with another one."""
    for name in found:
        if name in NEEDED:
            other = copy.deepcopy(found)
            del other[name]
            yield other
    yield {**found, 'format': 2}
    yield {**found, 'unknown': 1}
    for name in COUNTS & found.keys():
        yield {**found, name: str(found[name])}


def objects():
    """The objects that answers show, with their places."""
    for file in sorted((ROOT / 'trials' / 'answers').glob('*.txt')):
        for number, line in enumerate(file.read_text().split('\n'), 1):
            if line.startswith('| {"format":') and '@line' not in line:
                yield f'{file.name}:{number}', json.loads(line[2:])


def main():
    schema = json.loads((ROOT / 'docs' / 'cpm.schema.json').read_text())
    validator = Validator(schema)
    count, wrong = 0, []
    for place, found in objects():
        count += 1
        wrong += [f'{place}: {mistake}' for mistake in validator.mistakes(schema, found)]
        wrong += [f'{place}: a spoilt object fits: {other}' for other in spoilt(found) if not any(validator.mistakes(schema, other))]
    if count < LEAST:
        wrong.append(f'{count} objects were found, fewer than {LEAST}')
    for line in wrong:
        print(line)
    if '--quiet' not in sys.argv:
        print(f'{count} objects, {len(wrong)} wrong')
    return 1 if wrong else 0


if __name__ == '__main__':
    sys.exit(main())
