"""Runs the program on a terminal of its own: when it colours lines, and what it says if it waits for a text."""
import os
import pathlib
import pty
import re
import subprocess
import tempfile
import termios

from running import PROGRAM, expect, run

SEQUENCE = re.compile(rb'\x1b\[[0-9;]*m')
TEXT = 'var x: integer; begin y := 1 end.'
STUCK = 'type m = monitor; var q: queue; procedure entry w; begin delay(q) end; begin end; var g: m; begin init g; g.w end.'
WAITING = b"cpm reads a text from standard input; 'cpm --help' lists the commands\n"


def shown_of(words, folder, typed=b'', **environment):
    """What a terminal shows of the program, if its standard streams are that terminal and this is typed."""
    own, its = pty.openpty()
    settings = termios.tcgetattr(its)
    settings[1] &= ~termios.OPOST
    settings[3] &= ~termios.ECHO
    termios.tcsetattr(its, termios.TCSANOW, settings)
    others = {name: value for name, value in os.environ.items() if name != 'NO_COLOR'}
    with subprocess.Popen([PROGRAM, *words], stdin=its, stdout=its, stderr=its, cwd=folder, env={**others, **environment}):
        os.close(its)
        os.write(own, typed)
        shown = b''
        try:
            while part := os.read(own, 65_536):
                shown += part
        except OSError:
            # The last who had the terminal open has closed it.
            pass
    os.close(own)
    return shown


def try_colours(folder):
    """Which commands colour lines, and who can refuse it. Without its sequences a coloured text is the plain one."""
    for words, environment, is_coloured in [
            (['explain', 't'], {}, True), (['explain', '--all', 't'], {}, True), (['outcome', 's'], {}, True), (['search', 's'], {}, True),
            (['explain', 't'], {'NO_COLOR': '1'}, False), (['explain', 't'], {'NO_COLOR': ''}, True),
            (['explain', 't', '--color', 'auto'], {'NO_COLOR': '1'}, False), (['explain', 't', '--color', 'always'], {'NO_COLOR': '1'}, True),
            (['explain', 't', '--color', 'never'], {}, False), (['outcome', 's', '--color=never'], {}, False),
            (['explain', 't', '--json'], {}, False), (['outcome', 's', '--json'], {}, False), (['search', 's', '--json'], {}, False),
            (['explain', 's', '--dot'], {}, False), (['outcome', 's', '--dot'], {}, False), (['check', 't'], {}, False),
            (['explain', 'C4'], {}, False)]:
        shown, (_, out, error) = shown_of(words, folder, **environment), run(words, {'NO_COLOR': '1'}, folder=folder)
        plain = SEQUENCE.sub(b'', shown)
        expect(f'on a terminal, {words} {environment}', (plain, shown != plain), (SEQUENCE.sub(b'', out + error), is_coloured))


def try_terminal():
    with tempfile.TemporaryDirectory() as name:
        folder = pathlib.Path(name)
        (folder / 't').write_text(TEXT)
        (folder / 's').write_text(STUCK)
        try_colours(folder)
        # A line and then, at the start of the next one, the end of the input.
        typed = shown_of([], folder, b'begin end.\n\x04')
        (folder / 'e').write_text('begin end.\n')
        with open(folder / 'e', 'rb') as text:
            status, report, error = run([], folder=folder, stdin=text)
        expect('words on a terminal', typed, WAITING + report)
        expect('no words elsewhere', (status, error), (0, b''))
