"""What the trials share: the built program, how it is run, and the list of what is wrong."""
import os
import pathlib
import re
import subprocess

ROOT = pathlib.Path(__file__).resolve().parent.parent
PROGRAM = pathlib.Path(os.environ.get('CPM', ROOT / 'crates' / 'cpm' / 'out' / 'cpm'))
# The tests of rounds, as rt ci builds them.
ROUNDS = pathlib.Path(os.environ.get('CPM_ROUNDS', ROOT / 'crates' / 'cp_test_rounds' / 'out' / 'cp_test_rounds_tests'))
EXAMPLES = ROOT / 'docs' / 'examples'

wrong = []


def run(words, environment=None, folder=EXAMPLES, program=PROGRAM, **how):
    """The exit status, standard output and standard error of cpm, or of the tests, with these arguments. A signal's status is below 0."""
    how = {'stdin': subprocess.DEVNULL, 'stdout': subprocess.PIPE, 'stderr': subprocess.PIPE, 'timeout': 60, **how}
    ended = subprocess.run([program, *words], cwd=folder, env={**os.environ, **(environment or {})}, **how)
    return ended.returncode, ended.stdout, ended.stderr


def is_answer(wanted, found):
    """Whether an answer is the one that is wanted, where a line `...` stands for any lines."""
    parts = re.split(r'^\.\.\.\n', wanted, flags=re.M)
    return re.fullmatch('(?:.*\n)*?'.join(map(re.escape, parts)), found) is not None


def expect(what, found, wanted):
    """Notes an answer that isn't the wanted one."""
    expect_one_of(what, found, [wanted])


def expect_one_of(what, found, wanted):
    """Notes an answer that is none of the wanted ones."""
    if found not in wanted:
        wrong.append(f'{what}: {str(found):.500} instead of {" or ".join(map(str, wanted)):.500}')


def expect_at_least(what, count, least):
    """Notes a count that shows that less was tried than is meant to be."""
    if count < least:
        wrong.append(f'{what}: {count}, and at least {least} were to be tried')
