#!/usr/bin/env python3
"""unreached.py CRATE.. [--remove] [--examples]: the lemmas in proofs/ of these crates that no contract, answer or other lemma reaches, of any crate.

A lemma counts as reached where its name stands as a word in a file of proofs/, specs/ or src/ outside of its own text, in an import only if the file names
it elsewhere too. With --remove they are taken out, until none is left, and imports of them too; check the crate then. Names that are spelled alike in two
files keep each other, so what it lists is certain, and what it leaves may not be needed. Worked examples, in files whose names end in Examples, are reached by
nothing: they are listed by --examples alone."""
import glob
import os
import re
import sys

ROOT = os.path.dirname(os.path.dirname(os.path.abspath(__file__)))
WORD = re.compile(r"[^\s(){}\[\],;.:=→λ×]+")
SIGNED = re.compile(r'^( *)(?:(?:pub|abbrev|unfoldable|opaque) )*([^\s:(){}=,.]+) :(?:\s|$)')
MODULE = re.compile(r'^( *)(?:pub )?module ')


class Item:
    """A lemma: the lines that are its own, with the comment above it."""

    def __init__(self, name, indent, begin):
        self.name, self.indent, self.begin, self.end = name, indent, begin, begin


def items_of(lines):
    """The lemmas of a proof file, in modules too, by their lines."""
    items, current, comment = [], None, None
    for at, line in enumerate(lines):
        indent = len(line) - len(line.lstrip(' '))
        signed = SIGNED.match(line)
        if not line.strip():
            comment = None
            continue
        if line.lstrip().startswith('--'):
            comment = at if comment is None else comment
            continue
        is_clause = current and indent == current.indent and re.match(r'(unfolding|rewrite)\b|[})\]]+,?$', line.strip())
        if current and (indent > current.indent or is_clause or (indent == current.indent and line.split()[0] == current.name)):
            current.end = at + 1
        elif signed:
            current = Item(signed[2], indent, at if comment is None else comment)
            current.end = at + 1
            items.append(current)
        else:
            current = None
        comment = None
    return items


def words_of(text):
    """The words of a text, and those of its imports."""
    used, imported = {}, set()
    for block in re.split(r'(?m)^(?=(?:pub )?(?:ghost )?use )', text):
        is_use = re.match(r'(?:pub )?(?:ghost )?use ', block)
        head = re.match(r'[^\n]*\n(?:[ }][^\n]*\n)*', block) if is_use else None
        if head:
            if head[0].startswith('pub '):
                imported |= set(WORD.findall(head[0]))
            block = block[head.end() :]
        for word in WORD.findall(re.sub(r'(?m)--.*$', '', block)):
            used[word] = used.get(word, 0) + 1
    return used, imported


def proofs_of(crate):
    """The files of lemmas of a crate: those right in proofs/."""
    files = sorted(glob.glob(f'{ROOT}/crates/{crate}/proofs/*.antt'))
    return [it for it in files if '--examples' in sys.argv or not it.endswith('Examples.antt')]


def unreached(crates):
    """By file, the lemmas that nothing reaches."""
    counts = {}
    files = [it for part in ('proofs', 'specs', 'src') for it in glob.glob(f'{ROOT}/crates/*/{part}/**/*', recursive=True) if it.endswith(('.antt', '.rt'))]
    for file in files:
        used, imported = words_of(open(file, encoding='utf-8').read())
        for word, times in [*used.items(), *((it, 1) for it in imported)]:
            counts[word] = counts.get(word, 0) + times
    found = {}
    for file in (it for crate in crates for it in proofs_of(crate)):
        lines = open(file, encoding='utf-8').read().split('\n')
        for item in items_of(lines):
            own, _ = words_of('\n'.join(lines[item.begin : item.end]))
            if counts.get(item.name, 0) <= own.get(item.name, 0):
                found.setdefault(file, []).append(item)
    return found


def remove(file, items):
    lines = open(file, encoding='utf-8').read().split('\n')
    for item in reversed(items):
        del lines[item.begin : item.end]
    lines = without_empty_modules(lines)
    text = re.sub(r'\n{3,}', '\n\n', '\n'.join(lines))
    open(file, 'w', encoding='utf-8').write(text.rstrip('\n') + '\n')


def without_empty_modules(lines):
    """The lines without modules that hold nothing any more, and the comments above these."""
    begin = next((at for at, line in enumerate(lines) if MODULE.match(line) and not holds_any(lines, at)), None)
    if begin is None:
        return lines
    end = head_end(lines, begin)
    while begin > 0 and lines[begin - 1].lstrip().startswith('--'):
        begin -= 1
    return without_empty_modules(lines[:begin] + lines[end:])


def head_end(lines, at):
    """The line behind the head of a module, which ends with `where`."""
    return next(it + 1 for it in range(at, len(lines)) if lines[it].rstrip().endswith(' where') or lines[it].strip() == 'where')


def holds_any(lines, at):
    indent = len(MODULE.match(lines[at])[1])
    behind = [it for it in lines[head_end(lines, at) :] if it.strip() and not it.lstrip().startswith('--')]
    return bool(behind) and len(behind[0]) - len(behind[0].lstrip()) > indent


def main():
    crates = [it for it in sys.argv[1:] if not it.startswith('--')]
    while True:
        found = unreached(crates)
        for file, items in found.items():
            for item in items:
                print(f'{os.path.relpath(file, ROOT)}:{item.begin + 1}: {item.name}, {item.end - item.begin} lines')
            if '--remove' in sys.argv:
                remove(file, items)
        if not found or '--remove' not in sys.argv:
            break


if __name__ == '__main__':
    main()
