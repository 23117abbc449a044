"""What makes a score unclean, as the page on cleaning has it, and the lines that cleaning has to give back."""
import random
from fractions import Fraction

from .music import read_score


def lines_of(score):
    return [record.text for record in score.records]


def written(lines, end='\n'):
    return ''.join(line + end for line in lines).encode('latin-1')


def untidy(text):
    """A byte order mark, line ends of CR and LF, blank lines, tabs that align, cells that were left empty."""
    dice, lines = random.Random(text), []
    for record in read_score(text).records:
        line = record.text
        if record.kind != 'global' and len(record.tokens) > 1:
            how = dice.choice(['as it is', 'aligned', 'tab at the end', 'empty'])
            is_all_null = set(record.tokens) <= {'.', '*', '!'}
            if how == 'aligned':
                line = line.replace('\t', '\t\t', dice.randint(1, 2))
            elif how == 'tab at the end':
                line += '\t'
            elif how == 'empty' and not is_all_null:
                line = '\t'.join('' if token in ('.', '*', '!') and not (k == 0 and record.kind != 'data') else token for k, token in enumerate(record.tokens))
                line = line if record.kind == 'data' or kind_is_seen(line) else record.text
        lines += [line] + [''] * (dice.random() < 0.05)
    return (b'\xef\xbb\xbf' if dice.random() < 0.5 else b'') + written(lines, dice.choice(['\n', '\r\n']))


def kind_is_seen(line):
    return line.lstrip('\t').startswith(('*', '!'))


def joined(text):
    """Joins that follow each other in one record."""
    lines, held, joins = [], None, 0
    for record in read_score(text).records:
        tokens = record.tokens
        is_join = record.kind == 'interpretation' and '*v' in tokens and set(tokens) <= {'*', '*v'}
        if is_join and held is not None and tokens.index('*v') > held.index('*v'):
            last, gone = len(held) - 1 - held[::-1].index('*v'), held.count('*v') - joins
            held, joins = held[:last + 1] + tokens[last + 1 - gone:], joins + 1
            continue
        if held is not None:
            lines.append('\t'.join(held))
        held, joins = (tokens, 1) if is_join else (None, 0)
        if not is_join:
            lines.append(record.text)
    return written(lines)


def blanks(text):
    """Blanks in place of tabs."""
    return written(line if line.startswith('!!') else '   '.join(line.split('\t')) + '  ' for line in lines_of(read_score(text)))


def graced(text):
    """Grace notes beside the notes of other columns, whose own notes come in the next record."""
    lines, before = [], None
    for record in read_score(text).records:
        if before is not None and record.time is not None:
            kern = [k for k, name in enumerate(record.names) if name == '**kern']
            graces = [k for k in kern if before.tokens[k] != '.']
            notes = [k for k in kern if record.tokens[k] != '.' and k not in graces]
            if notes:
                lines[-1] = '\t'.join(record.tokens[k] if k in notes else token for k, token in enumerate(before.tokens))
                lines.append('\t'.join('.' if k in notes else token for k, token in enumerate(record.tokens)))
                before = None
                continue
        lines.append(record.text)
        is_grace = record.is_data and record.time is None and set(record.tokens) != {'.'}
        before = record if is_grace else None
    return written(lines)


def bar_rests(text):
    """1r for each rest of a whole bar."""
    score, lines, meter = read_score(text), [], None
    barlines = [(number, record) for number, record in enumerate(score.records) if record.bar is not None]
    for number, record in enumerate(score.records):
        tokens = list(record.tokens)
        if record.kind == 'interpretation':
            meter = next((Fraction(token[2:]) for token in tokens if token.startswith('*M') and token[2:3].isdigit()), meter)
        if record.time is not None and meter is not None:
            first, last = around(score, barlines, number)
            is_steered = any(token in ('*^', '*v', '*x') for other in score.records[first:last] for token in other.tokens)
            is_first = not any(other.time is not None for other in score.records[first:number])
            for k, token in enumerate(tokens):
                notes = record.notes(k)
                if is_first and notes and notes[0].is_rest and notes[0].duration == meter and (meter < 1 or score.records[first].bar is not None and not is_steered):
                    tokens[k] = token.replace(notes[0].written, '1', 1)
        lines.append('\t'.join(tokens))
    return written(lines)


def around(score, barlines, number):
    """The records of a bar: from its barline to the next one."""
    first = max((place for place, _ in barlines if place < number), default=0)
    last = min((place for place, _ in barlines if place > number), default=len(score.records))
    return first, last


def faulty(text, what):
    """A note that can't be read, and its line."""
    dice, score = random.Random(text), read_score(text)
    record, k = dice.choice(list(score.kern_tokens()))
    lines = lines_of(score)
    tokens = list(record.tokens)
    tokens[k] = what
    lines[record.line - 1] = '\t'.join(tokens)
    return written(lines), record.line


def part(text, field):
    """A part alone, as an edition of parts has it: without null records."""
    return written('\t'.join(tokens) for record, tokens in read_score(text).cut(field) if not record.is_data or any(token != '.' for token in tokens))
