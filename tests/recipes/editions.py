"""A second edition of a score: stems added, pitches changed, notes divided with and without a tie, the upbeat left out."""
import functools
import random
import re

from .music import Note, Score
from .scores import WRITTEN

VALUES = {text: value for value, text in WRITTEN.items()}


@functools.lru_cache(maxsize=None)
def second(text, field):
    """Another edition of a score; the same one for the same score."""
    dice = random.Random(text)
    score = Score(text)
    lines = [record.text for record in score.records]
    if dice.random() < 0.3:
        lines = without_upbeat(score)
        score = Score(written(lines))
    for _ in range(dice.randint(0, 4)):
        lines = edited(dice, score, field)
        score = Score(written(lines))
    return written(lines)


def written(lines):
    return ''.join(line + '\n' for line in lines).encode('latin-1')


def without_upbeat(score):
    """Without the data in front of the first barline that has a number, if no spine splits there."""
    first = next((record.line for record in score.records if record.bar is not None), 0)
    ahead = [record for record in score.records if record.line < first]
    if any(token in ('*^', '*v', '*x') for record in ahead for token in record.tokens):
        return [record.text for record in score.records]
    return [record.text for record in score.records if record.line >= first or record.kind != 'data']


def edited(dice, score, field):
    """One note is written in another way, or is another note."""
    lines = [record.text for record in score.records]
    notes = [(record, k) for record, k in score.kern_tokens(field) if any(note.step is not None for note in record.notes(k))]
    if not notes:
        return lines
    record, k = dice.choice(notes)
    how = dice.choice(['stem', 'pitch', 'repeated', 'tied'])
    if how == 'stem':
        return put(lines, record, k, ' '.join(part + dice.choice('/\\') for part in record.tokens[k].split(' ')))
    if how == 'pitch':
        return put(lines, record, k, re.sub(r'([a-gA-G])(\1*)', lambda found: 'g' if found[0] != 'g' else 'a', record.tokens[k], count=1))
    return divided(lines, score, record, k, how == 'tied')


def put(lines, record, k, token):
    tokens = list(record.tokens)
    tokens[k] = token
    return lines[:record.line - 1] + ['\t'.join(tokens)] + lines[record.line:]


def divided(lines, score, record, k, is_tied):
    """A note as two of half its length, where the second stands in a record of its own directly behind it."""
    note = Note(record.tokens[k])
    if ' ' in record.tokens[k] or record.time is None or note.goes_on or '[' in note.text or VALUES.get(note.written, 0) / 2 not in WRITTEN:
        return lines
    half = VALUES[note.written] / 2
    if record.until < record.time + half or record.until == record.time + half and half * 2 != record.until - record.time and len(record.tokens) > 1:
        return lines
    name = re.search(r'([a-gA-G])\1*[#n-]*', note.text)[0]
    first, other = WRITTEN[half] + name, WRITTEN[half] + name
    if is_tied:
        first, other = '[' + first, other + ']'
    lines = put(lines, record, k, first)
    return lines[:record.line] + ['\t'.join(other if column == k else '.' for column in range(len(record.tokens)))] + lines[record.line:]
