#!/usr/bin/env python3
"""Measures replays: instructions a private step of `cpm replay`, which reads the order of each step, and of `cpm run` on one worker.

A count is the difference of two calls under `valgrind --tool=callgrind`, of more and of fewer steps. It takes a minute.
"""
import pathlib
import tempfile

from measuring import CPM, instructions, show

TEXT = 'var x: integer; begin cycle x := 0; while x < 30000 do x := x + 1 end end.'
TURN = 10_000
FEWER, MORE = 10, 30


def main():
    with tempfile.TemporaryDirectory() as folder:
        text, order = pathlib.Path(folder) / 'text.cp', pathlib.Path(folder) / 'order'
        text.write_text(TEXT)
        taken = {'run': [], 'replay': []}
        for rounds in (FEWER, MORE):
            order.write_text('P1 ' * (TURN * rounds - 1) + 'P1\n')
            taken['run'].append(instructions([CPM, 'run', text, '--rounds', rounds, '--turn', TURN, '--workers', 1])[0])
            taken['replay'].append(instructions([CPM, 'replay', text, order])[0])
    ran, replayed = ((more - fewer) / (TURN * (MORE - FEWER)) for fewer, more in taken.values())
    show('replays', ['Run', 'Replay', 'Times as many'], [[f'{ran:.0f}', f'{replayed:.0f}', f'{replayed / ran:.2f}']])


if __name__ == '__main__':
    main()
