"""Looks at the sources: names of a program are hashed with its key alone, so that nobody can write a program whose names collide."""
import re

from running import ROOT, expect

# The kit's maps and hashers that hash. The maps of std that don't are sorted.
HASHES = re.compile(r'\b(?:(?:Hash|Index)(?:Map|Set)|RandomState|\w*Hasher|BuildHasherDefault)\b')
TABLES = 'cp_base_names'


def code_of(file):
    """The lines of a file without comments."""
    return '\n'.join(line.split('//')[0] for line in file.read_text().splitlines())


def look_for_hashes():
    """Only the tables of names hash, and each of their maps has the hasher with the key."""
    crates = [line.split() for line in (ROOT / 'crates.txt').read_text().splitlines()]
    expect('crates with a map that hashes', [words[0] for words in crates if 'indexmap' in words], [f'{TABLES}:'])
    sources = {file: code_of(file) for file in ROOT.glob('crates/*/src/**/*.rt')}
    expect('crates that hash', {file.relative_to(ROOT / 'crates').parts[0] for file, code in sources.items() if HASHES.search(code)}, {TABLES})
    maps = [hasher for code in sources.values() for hasher in re.findall(r'\bIndexMap<.*, (\w+)>', code)]
    expect('hashers of maps', maps, ['Key'])
    makers = [maker for code in sources.values() for maker in re.findall(r'\bIndexMap::(\w+)', code)]
    expect('how maps are made', makers, ['with_hasher'])
