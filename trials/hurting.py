"""Runs the program on files, streams and limits that are made to hurt. Each run ends with a status of the table of exits, and never by a signal."""
import ctypes
import os
import pathlib
import resource
import subprocess
import tempfile
import threading

from running import PROGRAM, expect, expect_at_least, expect_one_of, run

# A report that no pipe holds, of a text that needs some memory, and the blanks that make a text too long.
LONG = 'var v: array [0..19999] of integer; begin end.'
MEMORY, UNREAD, UNWRITTEN = (3, b'', b'fault M\n'), (4, b'', b'fault I1\n'), (4, b'', b'fault I2\n')
# The rights to read and search what the mode of a file refuses, and the call that drops one of them from what a program is given.
OVERRIDING, DROP = (1, 2), 24
SPACES = b' ' * 4096
TOO_LONG = (1, b'', b'refused S6 at 1048576\n')


def unopened(file, reason="can't be opened"):
    """The answer if a file can't be opened for this reason, or one of its own."""
    return (4, b'', f'fault I1\n{file}: {reason}\n'.encode())


def without_rights():
    """Drops the rights by which root reads any file, before the program starts. Nobody else has them."""
    for right in OVERRIDING:
        ctypes.CDLL(None).prctl(DROP, right, 0, 0, 0)


def closing(*files):
    """What closes these files before the program starts."""
    return lambda: [os.close(file) for file in files]


def limiting(kind, limit):
    """What sets a limit before the program starts."""
    return lambda: resource.setrlimit(kind, (limit, limit))


class Hurting:
    """A folder with a long text and one that asks for input, and how often the program was run on them."""

    def __init__(self, folder):
        self.folder, self.count = folder, 0
        self.text, self.pipe = folder / 'long.cp', folder / 'pipe'
        self.text.write_text(LONG)
        os.mkfifo(self.pipe)
        self.words = ['run', self.text, '--rounds', '1']
        self.due = run(self.words)[1]
        expect('the long report', self.due.count(b'\n'), 3 + 20_000)

    def answer(self, words, **how):
        self.count += 1
        return run(words, **how)

    def expect(self, what, words, wanted, **how):
        expect(what, self.answer(words, **how), wanted)

    def try_folders(self):
        """A folder in place of each file."""
        for words in (['check', '.'], [*self.words, '--input', '.'], ['replay', self.text, '.']):
            self.expect(f'a folder, {words[0]}', words, unopened('.', 'a directory'))

    def try_locked(self):
        """A file that may not be read, in place of each file."""
        locked = self.folder / 'locked'
        locked.touch(0)
        for words in (['check', locked], [*self.words, '--input', locked], ['replay', self.text, locked]):
            self.expect(f'a locked file, {words[0]}', words, unopened(locked, 'permission denied'), preexec_fn=without_rights)

    def try_devices(self):
        """Files that never end, and one that takes nothing."""
        for device in ['/dev/zero', '/dev/full']:
            self.expect(f'{device} as a text', ['check', device], TOO_LONG)
            self.expect(f'{device} as an input', [*self.words, '--input', device], (1, b'', b'refused I4 at 1048576\n'))
            self.expect(f'{device} as an order', ['replay', self.text, device], (1, b'', b'refused O1 at 1048576\n'))
        with open('/dev/full', 'wb') as full:
            for words in [self.words, ['check', self.text], ['replay', self.text, '/dev/null'], ['explain', self.text]]:
                self.expect(f'a full device, {words[0]}', words, (4, None, b'fault I2\n'), stdout=full)
            self.expect('a full device for errors', ['check', '/dev/null'], (1, b'', None), stderr=full)

    def feed(self, parts):
        """Writes parts to the pipe from another thread, until the reader closes it."""
        def write():
            try:
                with open(self.pipe, 'wb', buffering=0) as pipe:
                    for part in parts:
                        pipe.write(part)
            except BrokenPipeError:
                pass
        writer = threading.Thread(target=write)
        writer.start()
        return writer

    def try_pipes(self):
        """A named pipe that is written byte by byte, that ends too soon, and that never ends."""
        text = LONG.encode()
        for what, parts, wanted in [
                ('a pipe', [text[i:i + 1] for i in range(len(text))], (0, self.due, b'')),
                ('half a pipe', [text[:20]], (1, b'', b'refused Y2 at 20\n')),
                ('an empty pipe', [], (1, b'', b'refused Y2 at 0\n')),
                ('a pipe without end', (SPACES for _ in range(10_000)), TOO_LONG)]:
            writer = self.feed(parts)
            self.expect(what, ['run', self.pipe, '--rounds', '1'], wanted)
            # A writer whose pipe the program hasn't opened waits until somebody does.
            os.close(os.open(self.pipe, os.O_RDONLY | os.O_NONBLOCK))
            writer.join()

    def try_growing(self):
        """A text that grows by blanks while it is read."""
        for size in [len(LONG), 1_048_576 - 100_000, 1_048_576 - 1]:
            self.text.write_bytes(LONG.encode().ljust(size))
            ended = threading.Event()

            def grow():
                with open(self.text, 'ab', buffering=0) as text:
                    while not ended.is_set() and text.tell() < 2_000_000:
                        text.write(SPACES)
            writer = threading.Thread(target=grow)
            writer.start()
            found = self.answer(self.words)
            ended.set()
            writer.join()
            expect_one_of(f'a text that grows from {size} bytes', found, [(0, self.due, b''), TOO_LONG])
        self.text.write_text(LONG)

    def try_closed(self):
        """Standard streams that are closed, by the caller or by a reader that has read enough."""
        for words in [self.words, ['check', self.text], ['explain', 'C4']]:
            self.expect(f'no standard output, {words[0]}', words, (4, None, b'fault I2\n'), stdout=None, preexec_fn=closing(1))
        for words, status in [(self.words, 0), (['check', '/dev/null'], 1), (['run', self.text], 2), (['check', 'nowhere'], 4)]:
            found = self.answer(words, stderr=None, preexec_fn=closing(2))
            expect(f'no standard error, {words}', (found[0], found[1]), (status, self.due if status == 0 else b''))
        self.expect('no standard input', ['check', '-'], UNREAD, stdin=None, preexec_fn=closing(0))
        self.expect('no standard streams', self.words, (4, None, None), stdin=None, stdout=None, stderr=None, preexec_fn=closing(0, 1, 2))
        shell = 'set -o pipefail; "$@" | head -1'
        ended = subprocess.run(['bash', '-c', shell, '', PROGRAM, *self.words], capture_output=True, timeout=60)
        expect('a reader of one line', (ended.returncode, ended.stdout, ended.stderr), (4, b'rounds 1\n', b'fault I2\n'))
        self.count += 1

    def try_descriptors(self):
        """One descriptor beside the standard streams, which the C library needs to start the program at all."""
        few = limiting(resource.RLIMIT_NOFILE, 4)
        self.expect('one descriptor', self.words, (0, self.due, b''), preexec_fn=few)
        self.expect('none for the input', [*self.words, '--input', self.text], unopened(self.text), preexec_fn=few)
        self.expect('none for the order', ['replay', self.text, '/dev/null'], unopened('/dev/null'), preexec_fn=few)

    def try_many(self):
        """As many processes and threads as there can be, which draw single processes in every round."""
        names = ', '.join(f'v{k}' for k in range(254))
        (self.folder / 'many.cp').write_text('type p = process; var x: integer; begin cycle x := (x + 1) mod 100 end end; '
                                             f'var {names}: p; begin init {names} end.')
        words = ['run', self.folder / 'many.cp', '--rounds', '10000', '--turn', '1']
        due = run([*words, '--workers', '1'])
        for wave in ['1', '255']:
            self.expect(f'64 workers, waves of {wave}', [*words, '--workers', '64', '--wave', wave], due)

    def try_memory(self):
        """Less and less address space, from where all is well to almost where the C library no longer starts the program."""
        counts = {0: 0, 3: 0}
        (self.folder / 'blanks.cp').write_text(LONG.ljust(1_048_576))
        for words in [self.words, ['run', self.folder / 'blanks.cp', '--rounds', '1'], ['run', 'sieve.cp', '--rounds', '3', '--workers', '64']]:
            due = run(words)[1]
            for size in [*range(40_000, 8_000, -1_000), *range(8_000, 0, -50)]:
                if self.answer(['check', '/dev/null'], preexec_fn=limiting(resource.RLIMIT_AS, (size - 200) * 1024))[0] != 1:
                    break
                found = self.answer(words, preexec_fn=limiting(resource.RLIMIT_AS, size * 1024))
                expect_one_of(f'{size} KiB, {words}', found, [(0, due, b''), MEMORY])
                counts[found[0]] = counts.get(found[0], 0) + 1
        expect_at_least('runs with little memory that succeed', counts[0], 50)
        expect_at_least('runs that have too little memory', counts[3], 50)


def try_to_hurt():
    """Tries all of it, and returns how often the program was run."""
    with tempfile.TemporaryDirectory() as name:
        hurting = Hurting(pathlib.Path(name))
        hurting.try_folders()
        hurting.try_locked()
        hurting.try_devices()
        hurting.try_pipes()
        hurting.try_growing()
        hurting.try_closed()
        hurting.try_descriptors()
        hurting.try_many()
        hurting.try_memory()
        return hurting.count
