#!/usr/bin/env python3
"""Brings the names of the repository's own definitions and lemmas to the spelling of today's Rattle: words in snake case.

Run once at the top of the repository, after the toolchain's port.py. It turns the definitions, lemmas, fields, constructors and
aliases of specs/ and proofs/ (first letter small: costAt, bit-low) wherever they stand in antt files and in the contracts of .rt
files. Names of the library, names that Rattle makes, and names of src/ stay. It stops where two names of a file would fall
together."""
import collections
import glob
import re
import sys

# Names whose plain spelling is taken, by a name of the library or by another of the repository.
TAKEN = {
    'bit-and': 'bit_of_and', 'bit-or': 'bit_of_or', 'bit-xor': 'bit_of_xor',
    'sum_over': 'sum_over_lem', 'covers_rank': 'covers_rank_lem', 'by_rank': 'so_ranked',
}
# Names that Rattle makes: goals and the parts of a walk.
MADE = re.compile(r'^(Need|loop|invariant|decreases|returns)-')
SPLIT = re.compile(r'([\s(){}\[\],;.:«»]+)')
IMPORT = re.compile(r'^(?:ghost )?use ([^\s{;]+?)\.\{([^}]*)\}', re.M)
DEFINED = re.compile(r'^[ ]*(?:(?:pub|unfoldable|abbrev)\s+)*([^\s(){}\[\],;.:λ|]+)\s*:(?![=])\s*(\S*)', re.M)
CASE = re.compile(r'^[ ]*\|?[ ]*([a-z][^\s(){}\[\],;.:λ|]*)\s*:(?![=])', re.M)


def snake(name):
    """`costAt` and `bit-low` as `cost_at` and `bit_low`."""
    if name in TAKEN:
        return TAKEN[name]
    name = re.sub(r'(?<=[a-z0-9])([A-Z])', lambda m: '_' + m.group(1).lower(), name) if name[0].islower() else name
    return name.replace('-', '_')


def code(text):
    return re.sub(r'--.*', '', text)


def antt_files():
    return sorted(glob.glob('crates/*/specs/**/*.antt', recursive=True) + glob.glob('crates/*/proofs/**/*.antt', recursive=True))


def collect(files):
    own, outside = set(), set()
    for path in files:
        text = code(open(path).read())
        walked = path.endswith('/Proof.antt')
        for match in IMPORT.finditer(text):
            of_library = not match.group(1).startswith('Rattle.') or match.group(1).startswith('Rattle.std.')
            made = re.search(r'\.proofs\.|\.contracts\.|\.declared\.', match.group(1)) and not re.search(r'\.proofs\.[A-Z]\w*$', match.group(1))
            for name in re.split(r',\s*', match.group(2).strip()):
                parts = name.split(' as ')
                if of_library or made:
                    outside.add(parts[0].strip())
                if len(parts) == 2 and not parts[1].startswith('#'):
                    own.add(parts[1].strip())
        for match in re.finditer(r'^use \S+ as (\S+)', text, re.M):
            own.add(match.group(1))
        for match in list(DEFINED.finditer(text)):
            if walked and re.match(r'tie\.(Need|invariant|decreases)', match.group(2)):
                continue
            own.add(match.group(1))
        if not walked:
            for match in CASE.finditer(text):
                own.add(match.group(1))
    names = {}
    for name in own:
        if name in TAKEN:
            names[name] = TAKEN[name]
            continue
        if name in outside or MADE.match(name) or not re.search(r'-|^[a-z]\w*[A-Z]', name) or not re.match(r"[\w+≤⊢]", name):
            continue
        if snake(name) != name:
            names[name] = snake(name)
    # a lemma that would have its function's name
    taken = {snake(name) for name in names if '-' not in name} | {name for name in own if name not in names} | outside
    for name in names:
        if '-' in name and name not in TAKEN and names[name] in taken:
            names[name] += '_lem'
    return names


def turn_tokens(text, names, walked=False):
    """In a walk a field of what Rattle makes has the name of a function or a local, without an ending."""
    path = re.match(r'(?:ghost )?use [^\s{;]+', text)
    head = path.group(0) if path else ''
    if re.match(r'use \S+ as \S+$', text.strip()):
        head = text[:text.index(' as ') + 4]
    out = []
    for part in SPLIT.split(text[len(head):]):
        new = names.get(part, part)
        if walked and out and out[-1] == '.' and new.endswith('_lem'):
            new = part.replace('-', '_')
        out.append(new)
    return head + ''.join(out)


def turn_antt(text, names, walked):
    lines = []
    for line in text.split('\n'):
        at = line.find('--')
        body, note = (line, '') if at < 0 else (line[:at], line[at:])
        note = re.sub(r'`([^`]*)`', lambda m: '`' + turn_tokens(m.group(1), names) + '`', note)
        lines.append(turn_tokens(body, names, walked) + note)
    return '\n'.join(lines)


def turn_rt(text, names):
    """The contracts alone: `ghost use` items and clauses; and the names in back quotes in notes."""
    out, clause = [], False
    for line in text.split('\n'):
        plain = line.strip()
        if plain.startswith('//'):
            line = re.sub(r'`([^`]*)`', lambda m: '`' + turn_tokens(m.group(1), {k: v for k, v in names.items() if not k.islower() or '-' in k}) + '`', line)
        elif plain.startswith('ghost use ') or clause or re.match(r'(requires|ensures|ghost|invariant)\b', plain):
            line = turn_tokens(line, names)
            clause = not plain.endswith(';') and plain.count('{') > plain.count('}') or clause and plain.count('{') >= plain.count('}')
        out.append(line)
    return '\n'.join(out)


def tokens(text):
    text = re.sub(r'^(?:ghost )?use [^\s{;]+', '', text, flags=re.M)
    text = re.sub(r'\bRattle(\.[^\s(){}\[\],;.]+)+', '', text)
    return set(SPLIT.split(text))


def main():
    files = antt_files()
    names = collect(files)
    wrong = 0
    texts = {path: open(path).read() for path in files}
    by_new = collections.defaultdict(set)
    for old, new in names.items():
        by_new[new].add(old)
    for path, text in texts.items():
        there = tokens(code(text))
        if path.endswith('/Proof.antt'):
            there -= set(re.findall(r'\.([^\s(){}\[\],;.:]+)', code(text)))
        for new, olds in by_new.items():
            met = {old for old in olds if old in there} | ({new} if new in there and new not in TAKEN else set())
            if len(met) > 1:
                print(f'{path}: {sorted(met)} fall together')
                wrong += 1
    for path in sorted(glob.glob('crates/*/src/**/*.rt', recursive=True)):
        text = open(path).read()
        clauses = [line for line in text.split('\n') if re.match(r'\s*(requires|ensures|ghost)\b', line)]
        there = tokens('\n'.join(clauses))
        for old, new in names.items():
            if old in there and new in there:
                print(f'{path}: {old} and {new} fall together')
                wrong += 1
    if wrong and '--force' not in sys.argv:
        print(f'{wrong} places: nothing was turned')
        return 1
    count = 0
    for path, text in texts.items():
        new = turn_antt(text, names, path.endswith('/Proof.antt'))
        if new != text:
            open(path, 'w').write(new)
            count += 1
    for path in sorted(glob.glob('crates/*/src/**/*.rt', recursive=True)):
        text = open(path).read()
        new = turn_rt(text, names)
        if new != text:
            open(path, 'w').write(new)
            count += 1
    print(f'{len(names)} names in {count} files')
    return 0


if __name__ == '__main__':
    sys.exit(main())
