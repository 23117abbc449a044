"""The answers to the recipes, worked out from a score in plain Python: for each the lines that the recipe has to print."""
from collections import Counter
from fractions import Fraction
from math import gcd

from .music import PITCH, Note, read_note

NAMES = ['c', 'c#', 'd', 'e-', 'e', 'f', 'f#', 'g', 'a-', 'a', 'b-', 'b']


# what several answers use


def counted(found):
    """As `sort | uniq -c | sort -k1,1nr -k2` prints it."""
    return [f'{count:7d} {what}' for what, count in sorted(Counter(found).items(), key=lambda item: (-item[1], item[0]))]


def numbered(found):
    """As `sort -n | uniq -c` prints it."""
    return [f'{count:7d} {what}' for what, count in sorted(Counter(found).items())]


def shown(number):
    """A number as awk prints it."""
    return str(int(number)) if number == int(number) else f'{float(number):.6g}'


def interval(before, note):
    """From one note to another: direction, quality, size."""
    steps, semitones = note.step - before.step, note.semitones - before.semitones
    sign = (steps > 0) - (steps < 0) or (semitones > 0) - (semitones < 0)
    steps, semitones = abs(steps), sign * semitones if sign else 0
    octaves, simple = divmod(steps, 7)
    more = semitones - 12 * octaves - [0, 2, 4, 5, 7, 9, 11][simple]
    if simple in (0, 3, 4):
        quality = 'P' if more == 0 else 'A' * more if more > 0 else 'd' * -more
    else:
        quality = 'M' if more == 0 else 'm' if more == -1 else 'A' * more if more > 0 else 'd' * (-more - 1)
    return {1: '+', 0: '', -1: '-'}[sign] + quality + str(steps + 1)


def first_pitch(notes):
    return next((note for note in notes if note.step is not None), None)


def melodic(score, breaks=''):
    """For each record the token of each of its columns in intervals; `breaks` is a letter after which a note has none before it."""
    found, before = {}, []
    for record in score.records:
        if record.kind == 'global':
            continue
        before = [before[places[0]] if places and before else None for places in record.above]
        tokens = list(record.tokens)
        for k, name in enumerate(record.names):
            if name != '**kern' or not record.is_data or tokens[k] == '.':
                continue
            notes = record.notes(k)
            note = first_pitch(notes)
            if note is None:
                tokens[k] = 'r' if any(part.is_rest for part in notes) else '.'
            elif note.goes_on:
                tokens[k] = '.'
            else:
                tokens[k] = interval(before[k], note) if before[k] else '[' + spelled(note) + ']'
                before[k] = note
            if breaks and breaks in record.tokens[k]:
                before[k] = None
        found[record.line] = tokens
    return found


def spelled(note):
    octave, letter = divmod(note.step, 7)
    name = 'cdefgab'[letter]
    name = name * (octave - 3) if octave >= 4 else name.upper() * (4 - octave)
    return name + ('#' * note.alter if note.alter > 0 else '-' * -note.alter)


def semitones(notes, is_struck=False):
    """As `semits -x` and `semits -x -t` write a token."""
    found = ['r' if note.is_rest else str(note.semitones) for note in notes if note.is_rest or note.step is not None and not (is_struck and note.goes_on)]
    return ' '.join(found) or '.'


def durations(notes):
    """As `recip` writes a token."""
    found = [note.written + ('r' if note.is_rest else '') for note in notes if note.duration is not None or note.is_rest]
    return ' '.join(found) or '.'


def beats(score, beat):
    """Each beat's record, its time, and the barlines between them: counted from a numbered barline, in an upbeat back from the first."""
    first = next((record.time_after for record in with_times(score) if record.bar is not None), Fraction(0))
    start = first
    for record in with_times(score):
        if record.is_barline:
            if record.bar is not None:
                start = record.time_after
            yield record, None
        elif record.time is not None:
            number = -((start - record.time) // beat)
            time = start + number * beat
            while time < record.until:
                yield record, time
                time += beat


def odd_bars(score):
    """What is told of bars without a whole number of quarters, but for the upbeat and the last bar."""
    starts = [(record.bar, record.time_after) for record in with_times(score) if record.bar is not None]
    odd = [bar for (bar, start), (_, end) in zip(starts, starts[1:]) if (end - start) % Fraction(1, 4)]
    return f'no whole number of beats in bar {" ".join(map(str, odd))}' if odd else ''


def with_times(score):
    """Barlines and records in which a note begins; each barline has the time of what follows it."""
    kept = [record for record in score.records if record.time is not None or record.is_barline]
    after = score.end
    for record in reversed(kept):
        after = record.time if record.time is not None else after
        record.time_after = after
    return kept


def bars(score):
    """Each record with the number of the bar that it is in, 0 before the first."""
    bar = 0
    for record in score.records:
        if record.is_barline and record.bar is not None:
            bar = record.bar
        yield record, bar


def below(score):
    """Where the token of a record goes on: the next record with columns, and the place in it."""
    kept = [record for record in score.records if record.kind != 'global']
    after = {}
    for record, follows in zip(kept, kept[1:]):
        places = {}
        for k, above in enumerate(follows.above):
            for place in above:
                places.setdefault(place, k)
        after[record.line] = (follows, places)
    return after


# intervals and durations


def soprano(score, field):
    """The intervals of a part and how often they come."""
    found = melodic(score)
    return [token for record in score.records if record.is_data for token, own in zip(found[record.line], record.fields) if own == field and any(c.isdigit() for c in token)]


def intervals(score, field):
    return counted(soprano(score, field))


def melody(score, field):
    """A part in intervals, without null records."""
    found, lines = melodic(score), []
    for record in score.records:
        if record.kind == 'data':
            tokens = [token for token, own in zip(found[record.line], record.fields) if own == field]
            if any(token != '.' for token in tokens):
                lines.append('\t'.join(tokens))
    return lines


def seconds(score, field):
    """How many major seconds there are."""
    return [str(sum(step in ('+M2', '-M2') for step in soprano(score, field)))]


def leaps(score, field):
    """The records of a part with a sixth or more, and the barlines."""
    found, lines = melodic(score), []
    for record, tokens in score.cut(field):
        if record.kind != 'data':
            continue
        steps = [token for token, own in zip(found[record.line], record.fields) if own == field]
        if record.is_barline or any(token[0] in '+-' and int(''.join(filter(str.isdigit, token))) >= 6 for token in steps if token != '.'):
            lines.append('\t'.join(tokens + steps))
    return lines


def rhythm(score, field):
    return counted(part for record, k in score.kern_tokens(field) for part in durations(record.notes(k)).split(' ') if part != '.')


def grid(score):
    """The least common multiple of what the durations need, and of quarters."""
    needed = {note.duration.denominator for record, k in score.kern_tokens() for note in record.notes(k) if note.duration is not None}
    step = 4
    for whole in needed:
        step *= whole // gcd(step, whole)
    return [str(step)]


def triples(score, field):
    """Each three durations that follow each other in a column."""
    after, found = below(score), []
    for record, k in score.kern_tokens(field):
        parts, at, place = [], record, k
        while place is not None and len(parts) < 3:
            written = durations(at.notes(place)) if at.is_data and at.tokens[place] != '.' else '.'
            if written != '.':
                parts.append(written)
            elif not parts:
                break
            at, places = after.get(at.line, (None, {}))
            place = places.get(place)
        if len(parts) == 3:
            found.append(' '.join(parts))
    return found


def without_chords(score, field):
    return counted(three for three in triples(score, field) if three.count(' ') == 2)


def with_chords(score, field):
    """What is told of those that are left out."""
    count = sum(three.count(' ') > 2 for three in triples(score, field))
    return f'{count} with chords are left out' if count else ''


def struck(score, field):
    """The semitones of what a part strikes, and `r` for its rests."""
    return [one for record, k in score.kern_tokens(field) for one in semitones(record.notes(k), True).split(' ') if one != '.']


def census(score, field):
    found = struck(score, field)
    return [f'{len(found) - found.count("r")} notes, {found.count("r")} rests']


def pitch_classes(score, field):
    return numbered(int(one) % 12 for one in struck(score, field) if one != 'r')


def frequencies(score, field):
    return [shown(440 * 2 ** ((int(one) - 9) / 12)) for one in struck(score, field) if one != 'r'][:3]


def steps(score, field):
    """The semitones from each note to the next in its column, over rests; from and to single notes alone."""
    after, found = below(score), []
    for record, k in score.kern_tokens(field):
        now = semitones(record.notes(k), True)
        at, place, then = record, k, None
        while now not in ('.', 'r') and then in (None, '.', 'r') and place is not None:
            at, places = after.get(at.line, (None, {}))
            place = places.get(place)
            then = semitones(at.notes(place), True) if place is not None and at.is_data and at.tokens[place] != '.' else None
        if then is not None and ' ' not in now + then and now not in ('.', 'r'):
            found.append(int(then) - int(now))
    return numbered(found)


# what sounds


def quarters(score, beat=Fraction(1, 4)):
    lines = []
    for record, time in beats(score, beat):
        if time is None:
            lines.append(record.text)
        else:
            lines.append('\t'.join(sound.token if sound.start == time or sound.token == '.' else f'({sound.token})' for sound in record.sounds))
    return lines


def sounding(record, fields=None):
    """The notes that sound from a record on."""
    return [note for k, sound in enumerate(record.sounds) if record.names[k] == '**kern' and (fields is None or record.fields[k] in fields)
            for note in sound.notes if note.step is not None]


def chords(score):
    found = []
    for record, time in beats(score, Fraction(1, 4)):
        classes = {note.semitones % 12 for note in sounding(record)} if time is not None else None
        if classes:
            found.append(''.join(f' {one}' for one in sorted(classes)))
    return counted(found)


def outer(score, low, high):
    found = []
    for record, time in beats(score, Fraction(1, 4)):
        if time is not None:
            bass, soprano = sounding(record, [low]), sounding(record, [high])
            if bass and soprano:
                found.append((max(note.semitones for note in soprano) - min(note.semitones for note in bass)) % 12)
    return numbered(found)


def parallels(score):
    """Fifths and octaves between two columns that both move."""
    lines, after, bar = [], below(score), dict((record.line, number) for record, number in bars(score))
    struck = score.struck()
    for record, follows in zip(struck, struck[1:]):
        places = list(range(len(record.tokens)))
        at = record
        while at is not follows:
            at, steps = after[at.line]
            places = [None if place is None else steps.get(place) for place in places]
        kern = [k for k, name in enumerate(record.names) if name == '**kern']
        moves = []
        for k in kern:
            now, then = record.sounds[k].notes, follows.sounds[places[k]].notes if places[k] is not None else []
            is_one = len(now) == len(then) == 1 and now[0].step is not None and then[0].step is not None
            moves.append((now[0].semitones, then[0].semitones) if is_one else None)
        for low in range(len(kern)):
            for high in range(low + 1, len(kern)):
                lines += parallel(bar[record.line], low, high, moves[low], moves[high])
    return lines


def parallel(bar, low, high, one, other):
    if one is None or other is None or one[0] == other[0] or one[0] == one[1] or other[0] == other[1]:
        return []
    size = (other[0] - one[0]) % 12
    if size in (0, 7) and (other[1] - one[1]) % 12 == size:
        return [f'{bar} columns {low + 1} {high + 1} {"fifths" if size else "octaves"}']
    return []


def classes(score):
    """How long each pitch class sounds, in percent."""
    times = Counter()
    for record in score.struck():
        for note in sounding(record):
            times[note.semitones % 12] += record.until - record.time
    whole = sum(times.values())
    # awk counts records of the grid: so is the share of two whole numbers
    step = int(grid(score)[0])
    found = [(round(100 * int(time * step) / int(whole * step), 1), f'{100 * int(time * step) / int(whole * step):4.1f}% {NAMES[one]}') for one, time in times.items()]
    return [line for _, line in sorted(found, key=lambda item: (-item[0], item[1][5:]))]


def cadences(score):
    """What sounds a quarter before each fermata, and under it."""
    lines = []
    struck = score.struck()
    for record, bar in bars(score):
        if record.time is None or not any(name == '**kern' and ';' in token for name, token in zip(record.names, record.tokens)):
            continue
        lines.append(f'bar {bar}')
        before = [other for other in struck if other.time <= record.time - Fraction(1, 4) < other.until]
        for one in before + [record]:
            lines.append('\t'.join(sound.token for sound, name in zip(one.sounds, one.names) if name == '**kern'))
    return lines


# words and phrases


def syllables(score, voice, words):
    found, syllable, held = [], None, Fraction(0)
    for record in score.struck():
        token = record.tokens[record.fields.index(words)]
        if token != '.':
            if syllable is not None:
                found.append((held, syllable))
            syllable, held = token, Fraction(0)
        if sounding(record, [voice]):
            held += record.until - record.time
    if syllable is not None:
        found.append((held, syllable))
    return [f'{shown(4 * held)} {syllable}' for held, syllable in found]


def phrases(score, field):
    """The phrases of the leftmost voice of a part: each begins with the first note after a fermata."""
    found, is_due, begun = [], True, None
    notes = 0
    for record in score.records:
        if record.time is None and record.is_data or not record.is_data:
            continue
        token = record.tokens[record.fields.index(field)]
        if token == '.':
            continue
        note = first_pitch([read_note(part) for part in token.split(' ')])
        if note is not None and not note.goes_on:
            if is_due:
                if begun is not None:
                    found.append((notes, record.time - begun))
                begun, notes, is_due = record.time, 0, False
            notes += 1
        if ';' in token:
            is_due = True
    if begun is not None:
        found.append((notes, score.end - begun))
    return [f'{notes} notes, {shown(4 * time)} quarters' for notes, time in found]


# passages, tables, reach


def passage(score, field, first, last):
    lines = []
    for record, bar in bars(score):
        if record.kind == 'data' and first <= bar <= last:
            lines.append('\t'.join(token for token, own in zip(record.tokens, record.fields) if own == field))
    return lines


def section(score, field, label):
    lines, is_in, is_done = [], False, False
    for record in score.records:
        labels = [token for token in record.tokens if record.kind == 'interpretation' and token.startswith('*>') and '[' not in token]
        if labels:
            is_in = labels[0] == '*>' + label and not is_done
            is_done = is_done or is_in
        if record.kind == 'data' and is_in:
            tokens = [token for token, own in zip(record.tokens, record.fields) if own == field]
            if any(token != '.' for token in tokens):
                lines.append('\t'.join(tokens))
    return lines


def reach(score, field):
    """The lowest and the highest note that is struck."""
    found = sorted(note.semitones for record, k in score.kern_tokens(field) for note in record.notes(k) if note.is_struck)
    return [str(number) for number in (found[0], found[-1])] if found else []


def table(score, field):
    """A row for each record of a part: its bar, its notes, their semitones, intervals and durations."""
    steps, rows = melodic(score), []
    for record, bar in bars(score):
        if not record.is_data:
            continue
        places = [k for k, own in enumerate(record.fields) if own == field]
        cells = [[record.tokens[k] for k in places], [semitones(record.notes(k), True) for k in places],
                 [steps[record.line][k] for k in places], [durations(record.notes(k)) for k in places]]
        cells = [' '.join(token for token in cell if token != '.') or '.' for cell in cells]
        if any(cell != '.' for cell in cells):
            rows.append('\t'.join([str(bar)] + cells))
    return ['bar\tkern\tsemits\tmint\trecip'] + rows


def struck_by_bar(score, field):
    """How many notes are struck in each bar that has some."""
    found = Counter()
    for record, bar in bars(score):
        for k, own in enumerate(record.fields if record.is_data else []):
            if own == field:
                found[bar] += sum(note.is_struck for note in record.notes(k))
    return [f'{bar} {count}' for bar, count in found.items() if count]


# two scores, other keys


def struck_cells(score, field):
    """From the first numbered barline on, for each time of a record with a note of a part: its bar, its tokens, what is struck."""
    start, cells = None, {}
    for record, bar in bars(with_times_of(score)):
        if record.bar is not None and start is None:
            start = record.time_after
        places = [k for k, own in enumerate(record.fields) if own == field and record.tokens[k] != '.'] if record.time is not None else []
        if start is not None and places:
            struck = [semitones(record.notes(k), True) for k in places]
            cells[record.time - start] = (bar, ' '.join(record.tokens[k] for k in places), ' '.join(one for one in struck if one != '.') or '.')
    return cells


def with_times_of(score):
    """A score whose barlines have times."""
    with_times(score)
    return score


def editions(score, other, field):
    """Where two editions have other notes."""
    ours, theirs, lines = struck_cells(score, field), struck_cells(other, field), []
    for time in sorted(set(ours) | set(theirs)):
        bar = (ours.get(time) or theirs.get(time))[0]
        one, two = ours.get(time, (bar, '.', '.')), theirs.get(time, (bar, '.', '.'))
        if one[2] != two[2]:
            lines.append(f'{bar} {one[1]} {two[1]}')
    return lines


def words(score, other, field):
    """Where two editions have other words: the bar as its barline has it."""
    lines = []
    ours, theirs = spoken(score, field), spoken(other, field)
    for time in sorted(set(ours) | set(theirs)):
        bar = (ours.get(time) or theirs.get(time))[0]
        one, two = ours.get(time, (bar, '.'))[1], theirs.get(time, (bar, '.'))[1]
        if one != two:
            lines.append(f'{bar} {one} {two}')
    return lines


def spoken(score, field):
    start, barline, found = None, '', {}
    for record in with_times_of(score).records:
        if record.is_barline:
            barline = record.tokens[0]
            start = record.time_after if start is None and record.bar is not None else start
        elif record.time is not None and start is not None:
            token = record.tokens[record.fields.index(field)]
            if token != '.':
                found[record.time - start] = (barline, token)
    return found


def respelled(text, steps, semitones):
    """A part of a token a number of steps and semitones higher, without the sign of a natural."""
    note = read_note(text)
    if note.step is None:
        return text
    step, sound = note.step + steps, note.semitones + semitones
    natural = 12 * (step // 7 - 4) + [0, 2, 4, 5, 7, 9, 11][step % 7]
    new = Note('')
    new.step, new.alter = step, sound - natural
    place = PITCH.search(text)
    return text[:place.start()] + spelled(new) + text[place.end():]


def transposed(score, steps, semitones):
    lines = []
    for record in score.records:
        tokens = list(record.tokens)
        for k, name in enumerate(record.names):
            if name == '**kern' and record.is_data and tokens[k] != '.':
                tokens[k] = ' '.join(respelled(part, steps, semitones) for part in tokens[k].split(' '))
        lines.append('\t'.join(tokens))
        if record.kind == 'interpretation' and record.text.startswith('**'):
            lines.append('\t'.join(f'*Trd{steps}c{semitones}' if token == '**kern' else '*' for token in tokens))
    return lines


def there_and_back(score):
    """The score without tandem interpretations and the signs of naturals."""
    lines = transposed(score, 0, 0)
    return [line for line in lines if not any(is_tandem(token) for token in line.split('\t'))]


def is_tandem(token):
    return token.startswith('*') and not token.startswith('**') and token not in ('*', '*^', '*v', '*x', '*+', '*-')


def where(score, names):
    """The leaps of the first part of each of two files, with the file, the title and the bar."""
    title = next((record.text.split(':', 1)[1].strip() for record in score.records if record.text.startswith('!!!OTL') and ':' in record.text), '')
    steps, rows = melodic(score), []
    for record, bar in bars(score):
        own = [token for token, field in zip(steps.get(record.line, []), record.fields) if field == 1] if record.is_data else []
        if any(token[0] in '+-' and int(''.join(filter(str.isdigit, token))) >= 6 for token in own if token != '.'):
            rows.append('\t'.join([title, str(bar)] + own))
    return [name + '\t' + row for name in names for row in rows]


def together(score, low, high):
    """The notes and barlines of two parts, without records in which neither has a note."""
    lines = []
    for record in score.records:
        tokens = [token for field in (low, high) for token, own in zip(record.tokens, record.fields) if own == field] if record.kind == 'data' else []
        if any(token != '.' for token in tokens):
            lines.append('\t'.join(tokens))
    return lines


# Python


def divided(score, field):
    """The line and the notes of each record in which a part has two columns."""
    found = [(record, [token for token, own in zip(record.tokens, record.fields) if own == field]) for record in score.records if record.kind == 'data']
    return [' '.join([str(record.line), *tokens]) for record, tokens in found if len(tokens) == 2]


def sorted_intervals(score, field):
    """How often each token of a part in intervals comes, in the order of the tokens."""
    found = Counter(token for record in score.records if record.is_data for token, own in zip(melodic(score)[record.line], record.fields) if own == field and token != '.')
    return [f'{count} {token}' for token, count in sorted(found.items())]


def octaves_of_bass(score, field):
    """Each leap of more than a fifth of a part, with its bar and its note."""
    steps, lines = melodic(score), []
    for record, bar in bars(score):
        if record.is_data:
            k = record.fields.index(field)
            step = steps[record.line][k]
            if step[0] in '+-' and int(''.join(filter(str.isdigit, step))) > 5:
                lines.append(f'bar {bar} {record.tokens[k]} {step}')
    return lines
