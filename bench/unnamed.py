#!/usr/bin/env python3
"""unnamed.py [CRATE ..]: the lemmas of proofs/ that nothing names: no other lemma, no answer, no attribute of the code. Those that state
worked examples (Examples, and lemmas proved by `refl` alone) stand for themselves and aren't told. Only a check without a lemma proves
that it isn't needed: search may find one by itself. And the words of definitions that a file of src/ brings in (`ghost use`) and
doesn't say; what proofs bring in `rt check --fix-imports` sees to."""
import re
import sys
from pathlib import Path

CRATES = Path(__file__).resolve().parent.parent / 'crates'
WORD = re.compile(r"[^\s(){}.,;:λ]+")
LEMMA = re.compile(r'^( *)(?:pub |abbrev |unfoldable )*([^\s(){}]+) : ')
GHOST_USE = re.compile(r'^ *ghost use [^{]*{([^}]*)};$')


def blocks(text):
    """The lemmas of a file, each by its name and the text from its name to the next one."""
    found, name, lines = [], '', []
    for line in text.split('\n'):
        lemma = LEMMA.match(line)
        if lemma and len(lemma.group(1)) <= 2 and not line.startswith('--'):
            found.append((name, '\n'.join(lines)))
            name, lines = lemma.group(2), []
        lines.append(line)
    return found + [(name, '\n'.join(lines))]


def is_worked(name, text):
    return text.rstrip().endswith(f'\n{name} = refl')


def said_by(word):
    """Patterns of what says a word: a name, or the signs of an operator."""
    name = word.split(' as ')[-1].split('.')[-1]
    if '◌' in name or name == '[]':
        return [re.escape(sign) for sign in name.split('◌') if sign]
    return [rf'(?<![\w.]){re.escape(name)}(?!\w)']


def unsaid(text):
    """The words that a file's ghost imports bring in and nothing else in it says."""
    lines = text.split('\n')
    said = '\n'.join(line for line in lines if not GHOST_USE.match(line))
    for use in filter(None, map(GHOST_USE.match, lines)):
        yield from (word for word in use.group(1).split(', ') if not all(re.search(it, said) for it in said_by(word)))


def main():
    files = [path for kind in ('specs', 'proofs', 'src') for path in CRATES.glob(f'*/{kind}/**/*') if path.suffix in ('.antt', '.rt')]
    texts = {path: path.read_text() for path in files}
    named = {}
    for path, text in texts.items():
        for name, block in blocks(text) if path.suffix == '.antt' else [('', text)]:
            for word in set(WORD.findall(block)):
                named.setdefault(word, set()).add((path, name))
    for path in sorted(texts):
        crate, kind, *rest = path.relative_to(CRATES).parts
        told = []
        if sys.argv[1:] and crate not in sys.argv[1:]:
            continue
        if kind == 'src':
            told = [*unsaid(texts[path])]
        elif kind == 'proofs' and len(rest) == 1 and path.stem != 'Examples':
            told = [name for name, block in blocks(texts[path])
                    if name and not is_worked(name, block) and named.get(name, set()) <= {(path, name)}]
        if told:
            print(f'{crate}/{"src/" if kind == "src" else ""}{"/".join(rest)}: {", ".join(told)}')


main()
