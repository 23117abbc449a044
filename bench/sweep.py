#!/usr/bin/env python3
"""sweep.py CRATE.. [--quick] [--keep] [--slower]: shorter proofs by tactics. For each lemma of a crate's `proofs/*.antt`, and each answer to
a goal, it writes copies in which the call of a tactic stands in place of the body, of a clause, of all clauses that don't call the lemma
itself (as one last clause), of all that are one word (so too), of a `let`, of a field or of an arm. One check of a scratch copy of the crate
tries all of them, and each lemma takes the admitted forms that save most lines. No statement or definition changes, and no file of examples.
What fails in place is taken back, until the crate is proved. Then the lemmas go that nothing names any more, in the crate or above it, and the
imports that a changed file no longer says, and the files are written into the crate.

It tells how many calls of each kind were admitted, and before and after the lemmas, the lines, and the processor's seconds of a check of all these
files. Where those grew by more than two percent of the crate's seconds in `tests/measured.txt` the crate stays as it was, but for --slower. A
call may take few steps while it is tried, so that none gets in that takes long. --quick tries bodies and clauses alone, and no lemma of a `where`
block; --keep leaves the scratch copy. It begins with what `rt ci` has proved of the crates below. After it: `rt ci` of the crate.
"""
import collections
import os
import re
import subprocess
import sys
import time
from pathlib import Path

ROOT = Path(__file__).resolve().parent.parent
CRATES = ROOT / 'crates'
sys.path.insert(0, str(ROOT / 'tests'))
from edits import Room, crates_of  # noqa: E402
# steps that a call may take while it is tried: some hundredths of a second
STEPS = 20000
WIDTH = 110
# bodies and clauses alone, and no lemma of a `where` block
QUICK = '--quick' in sys.argv
# rounds in which what fails in place is taken back
ROUNDS = 20
HEAD = re.compile(r'^( *)(?:pub )?([^\s(){}\[\],;]+) :(?: (?!=).*)?$')
USE = re.compile(r'^use ([\w.+«»-]+)\.\{(.*)\}$')
TOKEN = re.compile(r'[(){}\[\],;]|[^\s(){}\[\],;]+')
EDGE = r'\s(){}\[\],;'
# words that end an application
SIGNS = {*'= → ≡ ≢ ∙ ∷ ++ + - * < ≤ × ⊎ ↔ ∧ ∨ && || == , ; ) ] } | ↦ . :'.split(),
         *'in let elim as rw simp at λ if then else record grind omega cc search absurd'.split()}
# types of values, which a tactic may not choose
VALUE = re.compile(r'(ℕ|Bool|List|Option|Result|Type|Row|Place|Sign|Path)(\s|$)')
# right sides that a tactic does as well
SHORT = re.compile(r'(cc|refl|tt)$|absurd \((omega|cc|let \S+ = \S+ in cc)')
# names that grind needs no list for, or can't take
PLAIN = {*'refl sym ap ap2 subst inl inr Some None Ok Err zero suc true false tt arith rules nat_tests common_steps by_bool []'.split(),
         *'length map take drop not cond replicate reverse sum'.split()}
NEEDS = {
    'arith': 'Rattle.std.proofs.Common',
    'nat_tests': 'Rattle.std.proofs.lemmas.Bool.Decides',
    'common_steps': 'Rattle.std.proofs.lemmas.Grind',
}


class Lemma:
    """A lemma: its name, its depth, and the lines of its statement, of `unfolding`, of each clause and of the body, as spans."""

    def __init__(self, name, depth, head, unfolding, clauses):
        self.name, self.depth, self.head, self.unfolding, self.clauses = name, depth, head, unfolding, clauses
        self.body = (clauses[0][0], clauses[-1][1])


class Form:
    """A form of a lemma: what stands in place of which spans of its file, and where its copy stands in the file that is tried."""

    def __init__(self, lemma, label, edits):
        self.lemma, self.label, self.edits = lemma, label, edits
        self.failed, self.at, self.size = False, None, 0

    def saves(self):
        return sum(end - start - len(text) for (start, end), text in self.edits.items())


# ---- reading a file

def depth_of(line):
    return len(line) - len(line.lstrip(' '))


def size(span):
    return span[1] - span[0]


def lemmas_of(lines, start=0, end=None):
    """The lemmas of a file's lines, those in `where` blocks too."""
    end = len(lines) if end is None else end
    found, at = [], start
    while at < end:
        head = HEAD.match(lines[at])
        lemma = head and lemma_at(lines, at, end, len(head.group(1)), head.group(2))
        if lemma:
            found += [lemma, *lemmas_of(lines, *lemma.body)]
        at = lemma.body[1] if lemma else at + 1
    return found


def lemma_at(lines, at, end, depth, name):
    """The lemma whose statement begins at a line, if clauses follow it."""
    behind = at + 1
    while behind < end and lines[behind].strip() and depth_of(lines[behind]) > depth and not lines[behind].lstrip().startswith('--'):
        behind += 1
    head, unfolding = (at, behind), []
    if behind < end and lines[behind].startswith(' ' * depth + 'unfolding '):
        unfolding, behind = [lines[behind]], behind + 1
    own = re.compile(rf'^ {{{depth}}}{re.escape(name)}(?:\s|$)')
    starts = []
    while behind < end:
        line = lines[behind]
        if own.match(line) and not HEAD.match(line):
            starts.append(behind)
        elif not starts or (line.strip() and depth_of(line) <= depth and not re.match(rf'^ {{{depth}}}[\])}}]', line)):
            break
        behind += 1
    if not starts:
        return None
    ends = starts[1:] + [behind]
    return Lemma(name, depth, head, unfolding, [(a, trimmed(lines, a, b)) for a, b in zip(starts, ends)])


def trimmed(lines, start, end):
    while end > start + 1 and (not lines[end - 1].strip() or lines[end - 1].lstrip().startswith('--')):
        end -= 1
    return end


def text_of(lines, span):
    return '\n'.join(lines[span[0]:span[1]])


def sides_of(text):
    """The left and the right side of a clause."""
    deep = 0
    for found in re.finditer(r'[({\[]|[)}\]]| =(?=\s)', text):
        deep += (found.group() in '({[') - (found.group() in ')}]')
        if found.group() == ' =' and deep == 0:
            return re.sub(r'\s+', ' ', text[:found.start()]).strip(), text[found.end():].strip()
    return None


def without_where(text):
    return re.split(r'\n *where\n', text)[0]


def bound_in(text):
    """The names that a right side binds."""
    names = set()
    for found in re.finditer(r'(?<!\S)let ([^=:]*)[=:]|λ ([^.]*)\.|\| ([^↦]*)↦', text):
        names |= set(TOKEN.findall(next(filter(None, found.groups()), '')))
    return names


def base(token):
    return re.split(r'\.\d|\.[a-z]', token)[0]


def joined(tokens):
    text = ''
    for token in tokens:
        text += token if token in ')}],;' or token[0] == '.' or text[-1:] in ('', '(', '{', '[') else ' ' + token
    return text


def calls(text, names, bound):
    """The calls of some lemmas in a text, each up to the first argument that something inside of the text binds."""
    tokens = TOKEN.findall(text)
    found = []
    for at, token in enumerate(tokens):
        said, behind = [token], at + 1
        while token in names and behind < len(tokens):
            word = tokens[behind]
            if word in '({':
                close, deep = behind, 0
                while close < len(tokens):
                    deep += (tokens[close] in '({[') - (tokens[close] in ')}]')
                    if deep == 0:
                        break
                    close += 1
                said.append(joined(tokens[behind:close + 1]))
                behind = close
            elif word in SIGNS or word in ')}][':
                break
            elif word[0] == '.':
                said[-1] += word
            else:
                said.append(word)
            behind += 1
        said = said[:next((at for at, word in enumerate(said) if '↦' in word or {base(it) for it in TOKEN.findall(word)} & bound), len(said))]
        call = ' '.join(said)
        if len(said) > 1 and len(call) <= 90:
            found.append(call)
    return [*dict.fromkeys(found)]


def outermost(lemmas):
    """The lemmas that stand in no other's `where` block, each with those in its own."""
    found = []
    for lemma in lemmas:
        if found and lemma.body[0] < found[-1][0].body[1]:
            found[-1][1].append(lemma)
        else:
            found.append((lemma, []))
    return found


def names_of(lines, outer):
    """What a tactic may be given by name: the file's lemmas, and what it imports from proofs."""
    names = {lemma.name for lemma, _ in outer}
    for use in filter(None, map(USE.match, lines)):
        if '.proofs' in use.group(1) or use.group(1).startswith('borrow.'):
            names |= {word.split(' as ')[-1].strip() for word in use.group(2).split(', ')}
    return {name for name in names if not name[0].isupper() and '◌' not in name and name not in PLAIN}


# ---- forms to try

def listed(*lists):
    return ', '.join(dict.fromkeys(word for words in lists for word in words))


def tactics(own, named, every):
    """The calls to try, by what a right side names: calls of its own lemma, lemmas, and calls of all."""
    yield 'nat_tests', f'grind ({listed(["arith", "nat_tests"], own)})'
    yield 'common_steps', f'grind ({listed(["arith", "common_steps"], own)})'
    if named:
        yield 'lemmas', f'grind ({listed(["arith", "nat_tests"], own, named)})'
    if set(every) - set(own):
        yield 'calls', f'grind ({listed(["arith", "nat_tests"], every)})'


def written(depth, left, call, behind=''):
    """The lines of a clause, a `let`, a field or an arm."""
    pad = ' ' * depth
    if len(pad + left + ' ' + call + behind) <= WIDTH:
        return [f'{pad}{left} {call}{behind}']
    if max(len(pad + left), len(pad + call + behind) + 4) <= WIDTH:
        return [f'{pad}{left}', f'{pad}    {call}{behind}']
    return None


def named_in(text, names, bound):
    return [it for it in dict.fromkeys(TOKEN.findall(text)) if it in names and it not in bound]


def pieces(lines, span):
    """The `let`s with a type, the fields and the arms of two lines and more in a span: span, what stays in front, the term, what stays behind it."""
    for at in range(*span):
        line = lines[at].strip()
        field = re.match(r'^([^\s(){}\[\],;:|]+ =)(?:\s|$)', line)
        if line.startswith('let ') and ' : ' in line:
            ends, marks = r' in$', (r'(?<!\S)let(?!\S)', r'(?<!\S)in(?!\S)')
        elif line.startswith('| ') and '↦' in line:
            ends, marks = None, None
        elif field and at > span[0]:
            ends, marks = r';$', None
        else:
            continue
        deep, lets, behind, ended = 0, 0, at, False
        while behind < span[1] and not ended:
            deep += len(re.findall(r'[({\[]', lines[behind])) - len(re.findall(r'[)}\]]', lines[behind]))
            if marks:
                lets += len(re.findall(marks[0], lines[behind])) - len(re.findall(marks[1], lines[behind]))
            behind += 1
            if ends is None:
                ended = deep <= 0 and (behind == span[1] or re.match(r'\s*(\||\])', lines[behind]))
            else:
                ended = deep <= 0 and lets <= 0 and re.search(ends, lines[behind - 1])
        inner = [it for it in lines[at + 1:behind] if it.strip()]
        if not ended or not inner or deep != 0 or not marks and any(depth_of(it) <= depth_of(lines[at]) and not re.match(r'\s*[\])}]', it) for it in inner):
            continue
        text = text_of(lines, (at, behind)).strip()
        if ends is None:
            left, _, right = text.partition('↦')
            yield (at, behind), left.strip() + ' ↦', right, ''
        else:
            sides = sides_of(text)
            if sides:
                tail = ' in' if marks else ';'
                yield (at, behind), sides[0] + ' =', sides[1].removesuffix(tail), tail


def last_clause(lemma, lines):
    """The left side of a clause that takes all cases that no other does: names for as many arguments as the clauses have."""
    sides = sides_of(text_of(lines, lemma.clauses[0]))
    if not sides:
        return None
    arguments, deep, named = 0, 0, '{' not in sides[0]
    for token in TOKEN.findall(sides[0])[1:]:
        arguments += deep == 0 and token not in ')}]'
        deep += (token in '({[') - (token in ')}]')
    kind = re.sub(r'\s+', ' ', text_of(lines, lemma.head)).split(' : ', 1)[-1]
    names, deep, part = [], 0, ''
    for word in re.findall(r'[({\[]|[)}\]]|→|[^(){}\[\]→]+', kind + ' →'):
        deep += (word in '({[') - (word in ')}]')
        if word == '→' and deep == 0:
            groups = part.strip()
            while groups[:1] in ('(', '{') and re.match(r'[({][^:(){}]+ : ', groups):
                close, inner = 0, 0
                for close, sign in enumerate(groups):
                    inner += (sign in '({[') - (sign in ')}]')
                    if inner == 0:
                        break
                names += groups[1:].split(' : ')[0].split() if groups[0] == '(' else []
                groups = groups[close + 1:].strip()
                if not groups:
                    break
            if groups:
                names.append('')
            part = ''
        else:
            part += word
    if not named or len(names) < arguments:
        return None
    free = iter(it for it in ('h', 'k', 'w', 'e', 'm', 'q', 'h1', 'h2', 'h3', 'h4', 'h5', 'h6') if it not in names)
    return ' '.join([lemma.name, *[it or next(free) for it in names[:arguments]]])


def is_value(lemma, lines):
    """Whether it is a definition, of which another term would mean something else: what it concludes is a plain type."""
    kind = re.sub(r'\s+', ' ', text_of(lines, lemma.head)).split(' : ', 1)[-1].split(' → ')[-1].strip()
    return re.match(VALUE, kind) is not None and '≡' not in kind


def forms_of(lemma, lines, names):
    """The forms of one lemma that save lines."""
    if is_value(lemma, lines):
        return
    depth = lemma.depth
    inside = {it.name for it in lemmas_of(lines, *lemma.body)}
    clauses = [sides_of(text_of(lines, it)) for it in lemma.clauses]
    if not all(clauses):
        return
    said = text_of(lines, lemma.body)
    bound = {word for left, _ in clauses for word in TOKEN.findall(left)} | inside | bound_in(without_where(said))
    for label, call in tactics([], named_in(said, names, bound), []):
        yield Form(lemma, f'body by {label}', {lemma.body: written(depth, f'{lemma.name} =', call)})
    own_calls = []
    for span, (left, right) in zip(lemma.clauses, clauses):
        right = without_where(right)
        new = (bound_in(right) | inside) - set(TOKEN.findall(left))
        own = calls(right, {lemma.name}, new)
        own_calls.append(lemma.name in TOKEN.findall(right))
        if size(span) < 2 or own_calls[-1] and not own:
            continue
        every = own + [it for it in calls(right, names - {lemma.name}, new) if it not in own]
        for label, call in tactics(own, named_in(right, names, new | {lemma.name}), every):
            yield Form(lemma, f'clause by {label}', {span: written(depth, f'{left} =', call)})
    others = [at for at, calls_own in enumerate(own_calls) if not calls_own]
    left = last_clause(lemma, lines) if 2 <= len(others) < len(own_calls) else None
    if left:
        end = lemma.body[1]
        texts = [without_where(clauses[at][1]) for at in others]
        named = named_in('\n'.join(texts), names, {lemma.name, *inside, *TOKEN.findall(left)})
        for label, call in tactics([], named, []):
            yield Form(lemma, f'last clause by {label}', {**{lemma.clauses[at]: [] for at in others}, (end, end): written(depth, f'{left} =', call)})
    short = [at for at, (_, right) in enumerate(clauses) if SHORT.match(right)]
    left = last_clause(lemma, lines) if 2 <= len(short) < len(clauses) and short != others else None
    if left:
        end = lemma.body[1]
        for label, call in tactics([], [], []):
            edits = {lemma.clauses[at]: [] for at in short}
            yield Form(lemma, f'short clauses by {label}', {**edits, (end, end): written(depth, f'{left} =', call)})
    for span, (left, right) in zip(lemma.clauses, clauses):
        if QUICK or size(span) < 3:
            continue
        stop = next((at for at in range(*span) if re.match(r'^ *where$', lines[at])), span[1])
        for place, front, term, tail in pieces(lines, (span[0], stop)):
            if lemma.name in TOKEN.findall(term):
                continue
            new = bound_in(term) | inside
            for label, call in tactics([], named_in(term, names, new), []):
                if label == 'lemmas':
                    yield Form(lemma, f'piece by {label}', {place: written(depth_of(lines[place[0]]), front, call, tail)})


def renamed(lines, old, new):
    return [re.sub(rf'(?<![^{EDGE}]){re.escape(old)}(?![^{EDGE}])', new, it) for it in lines]


def head_as(lemma, lines, new):
    head = lines[lemma.head[0]:lemma.head[1]]
    return [re.sub(r'^( *)(?:pub )?\S+', lambda it: it.group(1) + new, head[0], count=1), *head[1:], *lemma.unfolding]


def edited(lines, span, edits):
    """The lines of a span with edits, and the number of the edit of each (none where a line stays)."""
    out, at = [], span[0]
    starts = {start: (end, text, whose) for (start, end), (text, whose) in edits.items()}
    while at <= span[1]:
        end, text, whose = starts.get(at, (at, [], None))
        out += [(line, whose) for line in text]
        if end == at and at < span[1]:
            out.append((lines[at], None))
        at = max(end, at + 1)
    return out


def unfolded(files):
    """The names whose bodies count, since something unfolds them."""
    return {name for lines in files.values() for line in lines if line.lstrip().startswith('unfolding ') for name in line.split()[1:]}


def tried(lines, kept):
    """A file's lines with a copy of the lemma behind each lemma for each of its forms, and the forms, but of those names that are kept. For a lemma of a
    `where` block the copy is of the lemma that has the block: a check tells one error of a lemma."""
    outer = outermost(lemmas_of(lines))
    every = names_of(lines, outer)
    forms, out = [], []
    add = imports_of(lines, ' '.join(NEEDS))

    def copies(lemma, root, names):
        """Copies of a lemma, or of the one in whose `where` block it stands."""
        for form in forms_of(lemma, lines, names) if lemma.name not in kept else []:
            if any(it is None for it in form.edits.values()) or form.saves() < 1:
                continue
            new = f'{root.name}-sweep{len(forms)}'
            bounded = {span: ([re.sub(r'(grind \(.*\))( in|;|)$', rf'\1 steps {STEPS}\2', it) for it in text], None) for span, text in form.edits.items()}
            copy = head_as(root, lines, new) + renamed([line for line, _ in edited(lines, root.body, bounded)], root.name, new)
            form.at, form.size = len(out) + 1, len(copy)
            forms.append(form)
            out.extend(['', *copy])

    at = 0
    for lemma, inner in outer:
        out += add_at(lines, at, lemma.body[1], add)
        at = lemma.body[1]
        copies(lemma, lemma, every)
        sides = [sides_of(text_of(lines, it)) for it in lemma.clauses]
        names = (every | {it.name for it in inner}) - {word for side in sides if side for word in TOKEN.findall(side[0])}
        for it in [] if QUICK else inner:
            copies(it, lemma, names)
    return forms, out + add_at(lines, at, len(lines), add)


# ---- imports, and what nothing names

def imports_of(lines, said):
    """The imports that what is said needs, as words of a module."""
    have = {word for line in lines if line.startswith('use ') for word in re.split(r'[{}, ]+', line)}
    return {word: module for word, module in NEEDS.items() if re.search(rf'(?<![^{EDGE}]){word}(?![^{EDGE}])', said) and word not in have}


def first_use(lines):
    return next((at for at, line in enumerate(lines) if line.startswith('use ')), 1)


def add_at(lines, start, end, add):
    """Some of a file's lines, with imports in front of its first one."""
    first = first_use(lines)
    new = [f'use {module}.{{{word}}}' for word, module in add.items()] if start <= first < end else []
    return lines[start:first] + new + lines[first:end] if new else lines[start:end]


def with_imports(lines, said):
    """A file's lines with the imports that what is said needs, at the end of a line of their module where one has room."""
    out = list(lines)
    for word, module in imports_of(lines, said).items():
        room = next((at for at, line in enumerate(out) if line.startswith(f'use {module}.{{') and len(line) + len(word) + 2 <= WIDTH), None)
        if room is None:
            out.insert(first_use(out), f'use {module}.{{{word}}}')
        else:
            out[room] = f'{out[room][:-1]}, {word}}}'
    return out


def said_by(word):
    """Patterns of what says a word: a name, or the signs of an operator."""
    name = word.split(' as ')[-1].split('.')[-1]
    if '◌' in name or name == '[]':
        return [re.escape(sign) for sign in name.split('◌') if sign]
    return [rf'(?<![^{EDGE}@.←]){re.escape(name)}(?![^{EDGE}.])']


def without_imports(lines):
    """A file's lines without the imports that nothing in it says."""
    said = '\n'.join(line for line in lines if not USE.match(line))
    out = []
    for line in lines:
        use = USE.match(line)
        words = [word for word in use.group(2).split(', ') if all(re.search(it, said) for it in said_by(word))] if use else []
        if use and words:
            line = f'use {use.group(1)}.{{{", ".join(words)}}}'
        if not use or words:
            out.append(line)
    return out


def brought_in(texts, crate):
    """For each module of the crate's proofs, the names that texts bring in from it."""
    found = collections.defaultdict(set)
    for text in texts:
        for module, words in re.findall(rf'^ *use Rattle\.{crate}\.proofs\.(\S+)\.\{{(.*)\}}$', text, re.M):
            found[module] |= {word.split(' as ')[0] for word in words.split(', ')}
        for module, word in re.findall(rf'(?:crate|{crate})::proofs::(\w+)::(\w+)', text) + re.findall(rf'Rattle\.{crate}\.proofs\.(\w+)\.([^{EDGE}]+)', text):
            found[module].add(word)
    return found


def words_of(lines):
    return collections.Counter(word.split('.')[0] for line in lines if not line.startswith('use ') for word in re.split(rf'[{EDGE}]+', line))


def unnamed(files, others, crate):
    """The lemmas of a crate's files that nothing names, as (file, name)."""
    brought = brought_in(['\n'.join(lines) for lines in files.values()] + others, crate)
    for file, lines in files.items():
        words = words_of(lines)
        for lemma in lemmas_of(lines):
            if ' : goal.' in lines[lemma.head[0]]:
                continue
            if words[lemma.name] == words_of(lines[lemma.head[0]:lemma.body[1]])[lemma.name] and lemma.name not in brought[file.removesuffix('.antt').replace('/', '.')]:
                yield file, lemma


def without(lines, lemmas):
    """A file's lines without some lemmas, the comments right above them, and blocks that are empty then."""
    gone = set()
    for lemma in lemmas:
        start = lemma.head[0]
        while start > 1 and re.match(r' *-- (?!--)', lines[start - 1]):
            start -= 1
        gone |= set(range(start, lemma.body[1]))
    out = []
    for at, line in enumerate(lines):
        if at not in gone and (line.strip() or not out or out[-1].strip()):
            out.append(line)
    for at in reversed(range(len(out))):
        ahead = next((line for line in out[at + 1:] if line.strip() and not line.lstrip().startswith('--')), '')
        if re.match(r'^ *(module _.* )?where$', out[at]) and depth_of(ahead) <= depth_of(out[at]):
            del out[at]
    while not out[-1].strip():
        del out[-1]
    return out


# ---- checks

class Scratch:
    """A copy of a crate, over the libraries of those that it stands on."""

    def __init__(self, crate):
        self.crate = crates_of(ROOT)[crate]
        self.room = Room(ROOT, [self.crate])
        self.folder, self.log = Path(self.room.folder) / 'crates' / crate, Path(self.room.folder) / 'log'
        missing = {it.name for it in self.crate.below} - self.room.prove(1)[0]
        if missing:
            sys.exit(f'{crate}: not proved below: {" ".join(sorted(missing))}')

    def check(self):
        """What a check of the copy says, and the seconds of the processor that it took."""
        _, said, (_, seconds) = self.room.check(self.crate, self.folder, f'{self.room.folder}/kept')
        self.log.write_text(said)
        return said, seconds


def chosen(said):
    """Where a tactic stands for a value: another one would mean something else."""
    for found in re.finditer(r'^\./proofs/(\S+?):(\d+):\d+: note: `\w+` has chosen a term of a type that is data', said, re.M):
        yield found.group(1), int(found.group(2))


def proved(said):
    return re.search(r'^logic=proved', said, re.M) is not None


def errors(said):
    """What a check refuses in files of proofs, but for what only rests on something refused."""
    for found in re.finditer(r'^\./proofs/(\S+?):(\d+):\d+: error: (.*)$', said, re.M):
        yield found.group(1), int(found.group(2)), found.group(3)


def written_to(folder, files, behind=()):
    for file, lines in files.items():
        (folder / 'proofs' / file).write_text('\n'.join([*lines, *behind, '']))


def read_from(folder, names):
    return {file: (folder / 'proofs' / file).read_text().rstrip('\n').split('\n') for file in names}


def measured(scratch, files):
    """A check of all of these files, though they were checked before."""
    written_to(scratch.folder, files, [f'-- {os.urandom(8).hex()}'])
    said, seconds = scratch.check()
    written_to(scratch.folder, files)
    return proved(said), seconds


def share_of(crate):
    """Two percent of the seconds that a check of the crate takes."""
    lines = [line.split() for line in (ROOT / 'tests' / 'measured.txt').read_text().split('\n')]
    return next((int(line[2]) for line in lines if line[:1] == [crate]), 0) * 0.02


# ---- a sweep

def mark(forms, said, file):
    """Notes which of a file's forms failed, and tells what was refused beside them."""
    for name, line in chosen(said):
        for form in forms if name == file else []:
            form.failed |= form.at <= line <= form.at + form.size
    for name, line, text in errors(said):
        if name == file:
            numbers = [int(it) for it in re.findall(r'-sweep(\d+)', text)]
            mine = [form for form in forms if form.at < line <= form.at + form.size] + [forms[it] for it in numbers]
            for form in mine:
                form.failed = True
            if not mine and 'which was' not in text and 'not admitted' not in text:
                print(f'  {name}:{line}: {text}'[:200])


def choice(forms):
    """Of each lemma the admitted forms that save most, and overlap with none that saves more."""
    taken = []
    for form in sorted((it for it in forms if not it.failed), key=lambda it: -it.saves()):
        spans = [form.lemma.body] if form.label.startswith('body') else [*form.edits]
        if not any(a[0] < b[1] and b[0] < a[1] or a == b for a in spans for _, others in taken for b in others):
            taken.append((form, spans))
    return [form for form, _ in taken]


def applied(lines, forms):
    """A file's lines with forms in place, and whose each line is."""
    edits = {span: (text, form) for form in forms for span, text in form.edits.items()}
    whose = edited(lines, (0, len(lines)), edits)
    new = [line for line, _ in whose]
    added = with_imports(new, '\n'.join(line for line, form in whose if form))
    more = len(added) - len(new)
    return added, {at + 1 + more: form for at, (_, form) in enumerate(whose) if form}


def take_back(files, forms, said, again):
    """Notes which forms failed in place. Where a lemma's fail again, it stays as it was."""
    count = 0
    for file, line, text in errors(said):
        if 'which was' in text:
            continue
        lines, whose = files.get(file, ([], {}))
        lemma = next((it for it in reversed(lemmas_of(lines)) if it.head[0] < line <= it.body[1]), None)
        mine = {whose[line]} if line in whose else {whose[it] for it in range(lemma.head[0], lemma.body[1] + 1) if it in whose} if lemma else set()
        for form in mine:
            form.failed = True
            for other in forms[file] if again else []:
                other.failed |= other.lemma is form.lemma
        count += len(mine)
        if not mine:
            print(f'  {file}:{line}: {text}'[:200])
    return count


def give_up(files, forms, said):
    """Where an error names no form, those of its file stay as they were, all of them."""
    count = 0
    for name in {file for file, _, _ in errors(said)} & files.keys():
        for form in choice(forms[name]):
            form.failed = True
            count += 1
    return count


def in_place(scratch, files, forms):
    """The files with what was admitted in place, once that is proved."""
    for turn in range(ROUNDS):
        new = {file: applied(lines, choice(forms[file])) for file, lines in files.items()}
        written_to(scratch.folder, {file: lines for file, (lines, _) in new.items()})
        said, _ = scratch.check()
        if proved(said):
            return {file: lines for file, (lines, _) in new.items()}
        count = take_back(new, forms, said, turn > 0)
        if not count:
            count = give_up(new, forms, said)
        print(f'  taken back: {count}', flush=True)
        if not count:
            break
    sys.exit(f'{scratch.crate.name}: not proved, see {scratch.log}')


def pruned(files, new, others, crate):
    """The changed files without imports that nothing says and lemmas that nothing names any more."""
    before = {(file, lemma.name) for file, lemma in unnamed(files, others, crate)}
    while True:
        new = {file: without_imports(lines) if lines != files[file] else lines for file, lines in new.items()}
        idle = collections.defaultdict(list)
        for file, lemma in unnamed(new, others, crate):
            if (file, lemma.name) not in before:
                idle[file].append(lemma)
        if not idle:
            return new
        new = {file: without(lines, idle[file]) if file in idle else lines for file, lines in new.items()}


def is_swept(path):
    """Whether a file is one of lemmas, or of answers to a function's goals."""
    return path.name == 'Answers.antt' or path.parent.name == 'proofs' and path.stem != 'Lib' and 'Example' not in path.stem


def count(files):
    return sum(len(lines) for lines in files.values())


def told(labels):
    return ', '.join(f'{label} {labels[label]}' for label in sorted(labels, key=lambda it: -labels[it]))


def sweep(crate):
    scratch = Scratch(crate)
    folder = scratch.folder
    files = read_from(folder, [str(it.relative_to(folder / 'proofs')) for it in sorted((folder / 'proofs').glob('**/*.antt')) if is_swept(it)])
    swept = {CRATES / crate / 'proofs' / file for file in files}
    others = [path.read_text() for path in CRATES.glob('*/**/*') if path.suffix in ('.antt', '.rt') and 'out' not in path.parts and path not in swept]
    scratch.check()
    holds, before = measured(scratch, files)
    if not holds:
        sys.exit(f'{crate}: not proved before, see {scratch.log}')
    forms, copies, kept = {}, {}, unfolded(files)
    for file, lines in files.items():
        forms[file], copies[file] = tried(lines, kept)
    written_to(folder, copies)
    said, trying = scratch.check()
    for file in files:
        mark(forms[file], said, file)
    tries = collections.Counter(form.label for its in forms.values() for form in its)
    admitted = collections.Counter(form.label for its in forms.values() for form in its if not form.failed)
    print(f'  {trying:.0f} s to try: ' + ', '.join(f'{label} {admitted[label]} of {tries[label]}' for label in tries), flush=True)
    new = in_place(scratch, files, forms)
    taken = [form for its in forms.values() for form in choice(its)]
    written_to(folder, pruned(files, new, others, crate))
    subprocess.run(['rt', 'fmt'], cwd=folder, stdout=subprocess.DEVNULL)
    less = read_from(folder, new)
    if proved(scratch.check()[0]):
        new = less
    else:
        print(f'  not proved without what nothing names: {[it for it in errors(scratch.log.read_text())][:3]}'[:300])
    _, after = measured(scratch, new)
    lemmas = [lemma for lines in files.values() for lemma in lemmas_of(lines)]
    print(f'{crate}: {len({form.lemma for form in taken})} lemmas of {len(lemmas)}, {len(lemmas) - sum(len(lemmas_of(it)) for it in new.values())} gone, '
          f'lines {count(files)} to {count(new)}, seconds {before:.1f} to {after:.1f} ({told(collections.Counter(form.label for form in taken))})', flush=True)
    if after - before > share_of(crate) and '--slower' not in sys.argv:
        print('  left as it was: slower')
    else:
        written_to(CRATES / crate, {file: lines for file, lines in new.items() if lines != files[file]})
    if '--keep' not in sys.argv:
        scratch.room.clear()


def main():
    for crate in sys.argv[1:]:
        if not crate.startswith('--'):
            sweep(crate)


if __name__ == '__main__':
    main()
