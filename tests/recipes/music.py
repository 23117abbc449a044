"""What a score says, read in plain Python: its records, where each column comes from, and when each note sounds.

It shares nothing with humpipe: a recipe's answer is worked out from this. Bytes are letters of Latin-1, so that each stays what it is."""
import functools
import re
from fractions import Fraction

STEPS = 'cdefgab'
SEMITONES = [0, 2, 4, 5, 7, 9, 11]
DURATION = re.compile(r'([0-9]+)(?:%([0-9]+))?(\.*)')
PITCH = re.compile(r'([a-gA-G])\1*(?:#+|-+|n)?')


class Unsound(Exception):
    """Not a score as these tests mean one: its columns or its durations don't fit."""


class Note:
    """A part of a token of a `**kern` column."""

    def __init__(self, text):
        self.text = text
        self.is_rest = 'r' in text
        self.is_grace = 'q' in text or 'Q' in text
        self.goes_on = '_' in text or ']' in text
        found = None if self.is_rest else PITCH.search(text)
        self.step = self.alter = None
        if found:
            name = re.match(r'[a-gA-G]+', found[0])[0]
            octave = 3 + len(name) if name[0].islower() else 4 - len(name)
            self.step = 7 * octave + STEPS.index(name[0].lower())
            self.alter = found[0].count('#') - found[0].count('-')
        found = None if self.is_grace else DURATION.search(text)
        self.written = found[0] if found else ''
        self.duration = length(found) if found else None

    @property
    def semitones(self):
        return 12 * (self.step // 7 - 4) + SEMITONES[self.step % 7] + self.alter

    @property
    def is_struck(self):
        return self.step is not None and not self.goes_on


@functools.lru_cache(maxsize=None)
def read_note(text):
    """A note, read once for all places where it stands."""
    return Note(text)


def length(found):
    """A duration in whole notes."""
    number, divided, dots = found[1], found[2], len(found[3])
    if number.strip('0') == '':
        plain = Fraction(2 ** len(number))
    else:
        plain = Fraction(int(divided or 1), int(number))
    return plain * (2 - Fraction(1, 2 ** dots))


class Record:
    """A line: its kind, its tokens, and for each of them the field and the name of its spine, and the columns above it."""

    def __init__(self, line, text):
        self.line, self.text = line, text
        self.tokens = text.split('\t')
        self.kind = kind_of(text)
        self.fields, self.names, self.above, self.is_right = [], [], [], []
        self.time = self.until = None
        self.sounds = []

    @property
    def is_data(self):
        return self.kind == 'data' and not self.is_barline

    @property
    def is_barline(self):
        return self.kind == 'data' and self.text.startswith('=')

    @property
    def bar(self):
        """The number of a numbered barline."""
        found = re.match(r'=([0-9]+)', self.text)
        return int(found[1]) if found else None

    def notes(self, k):
        """The notes of a token."""
        if self.names[k] != '**kern' or not self.is_data or self.tokens[k] == '.':
            return []
        return [read_note(part) for part in self.tokens[k].split(' ')]


def kind_of(text):
    if text.startswith('!!'):
        return 'global'
    return 'local' if text.startswith('!') else 'interpretation' if text.startswith('*') else 'data'


class Sound:
    """What sounds in a column: the token, when it began, when it ends."""

    def __init__(self, token='.', start=None, end=None):
        self.token, self.start, self.end = token, start, end
        self.notes = [read_note(part) for part in token.split(' ')] if token != '.' else []


class Score:
    def __init__(self, text):
        self.source = text
        lines = text.decode('latin-1').replace('\r\n', '\n').split('\n')
        if lines.pop() != '':
            raise Unsound('no line end')
        self.records = [Record(number, line) for number, line in enumerate(lines, 1)]
        self.follow()
        self.count()

    def follow(self):
        """Gives each record its spines."""
        fields = names = None
        above = []
        for record in self.records:
            if record.kind == 'global':
                continue
            if fields is None:
                if not all(token.startswith('**') for token in record.tokens):
                    raise Unsound('no opening record')
                fields, names = list(range(1, len(record.tokens) + 1)), list(record.tokens)
                above, is_right = [[] for _ in fields], [False for _ in fields]
                self.fields = dict(zip(fields, names))
            if len(record.tokens) != len(fields) or '' in record.tokens or any(kind_of(token) != record.kind for token in record.tokens):
                raise Unsound(f'line {record.line}: columns')
            record.fields, record.names, record.above, record.is_right = fields, names, above, is_right
            fields, names, above, is_right = self.steered(record)
        if fields != []:
            raise Unsound('the end is missing')

    def steered(self, record):
        """The columns behind a record: their fields and names, the columns above, and which is the right half of a split."""
        fields, names, above, is_right, k = [], [], [], [], 0
        swapped = [k for k, token in enumerate(record.tokens) if token == '*x']
        if len(swapped) not in (0, 2):
            raise Unsound('an exchange')
        order = list(range(len(record.tokens)))
        if swapped:
            order[swapped[0]], order[swapped[1]] = swapped[1], swapped[0]
        while k < len(order):
            at = order[k]
            token = record.tokens[at]
            if token == '*v':
                last = k
                while last + 1 < len(order) and record.tokens[order[last + 1]] == '*v':
                    last += 1
                if last == k or len({record.fields[i] for i in range(k, last + 1)}) > 1:
                    raise Unsound('a join')
                places, k = [list(range(k, last + 1))], last
            else:
                places = [[at], [at]] if token == '*^' else [] if token == '*-' else [[at]]
            for half, place in enumerate(places):
                fields.append(record.fields[place[0]])
                names.append(record.names[place[0]])
                above.append(place)
                is_right.append(half == 1)
            k += 1
        return fields, names, above, is_right

    def count(self):
        """Gives each record with a note its time, and what sounds in each column until the next."""
        ends, sounds, now, last = [], [], Fraction(0), None
        for record in self.records:
            if record.kind == 'global':
                continue
            ends = [None if is_right else handed(ends, places) for places, is_right in zip(record.above, record.is_right)]
            sounds = [handed(sounds, places) or Sound() for places in record.above]
            kern = [k for k, name in enumerate(record.names) if name == '**kern']
            if record.is_barline and len({ends[k] for k in kern} - {None}) > 1:
                raise Unsound(f'line {record.line}: a bar that is not full')
            if record.is_data:
                begun = {k: first_duration(record, k) for k in kern}
                if any(begun.values()):
                    now = self.strike(record, kern, begun, ends, sounds)
                    if last is not None:
                        last.until = now
                    last = record
                elif any(token != '.' for k, token in enumerate(record.tokens) if k not in kern):
                    raise Unsound(f'line {record.line}: a token without a note')
            if record.kind == 'interpretation' and '*v' in record.tokens:
                self.joins(record, ends)
        if last is None:
            raise Unsound('no note')
        self.end = last.until = max(last.sounds[k].end for k in range(len(last.sounds)) if last.sounds[k].end is not None)

    def strike(self, record, kern, begun, ends, sounds):
        """A record in which a note begins: its time is where notes end that sounded before it."""
        waits = [ends[k] for k in kern if ends[k] is not None]
        now = min(waits) if waits else Fraction(0)
        for k in kern:
            if begun[k] is not None:
                if ends[k] not in (None, now) or any(note.is_grace for note in record.notes(k)):
                    raise Unsound(f'line {record.line}: a note too early')
                ends[k] = now + begun[k]
                sounds[k] = Sound(record.tokens[k], now, ends[k])
            elif record.tokens[k] != '.' or ends[k] is None or ends[k] <= now:
                raise Unsound(f'line {record.line}: a column without a note')
        for k, token in enumerate(record.tokens):
            if k not in kern and token != '.':
                sounds[k] = Sound(token, now)
        record.time, record.sounds = now, list(sounds)
        return now

    @staticmethod
    def joins(record, ends):
        """Voices that join have ended."""
        fields = {record.fields[k] for k, token in enumerate(record.tokens) if token == '*v'}
        for field in fields:
            if len({ends[k] for k, token in enumerate(record.tokens) if token == '*v' and record.fields[k] == field}) > 1:
                raise Unsound(f'line {record.line}: a join of a voice that sounds')

    # what answers ask

    def struck(self):
        """The records in which a note begins."""
        return [record for record in self.records if record.time is not None]

    def parts(self, name='**kern'):
        return [field for field, spine in self.fields.items() if spine == name]

    def kern_tokens(self, *fields):
        """The tokens of kern columns, a record and a place of each."""
        for record in self.records:
            if record.is_data:
                for k, name in enumerate(record.names):
                    if name == '**kern' and record.tokens[k] != '.' and (not fields or record.fields[k] in fields):
                        yield record, k

    def cut(self, *fields):
        """The records with the tokens of these fields alone, without empty ones: their record and their tokens."""
        for record in self.records:
            if record.kind != 'global':
                tokens = [token for token, field in zip(record.tokens, record.fields) if field in fields]
                if tokens:
                    yield record, tokens


def handed(states, places):
    """What a column has from the leftmost of those above it."""
    if not places or not states:
        return None
    return states[places[0]]


def first_duration(record, k):
    return next((note.duration for note in record.notes(k) if note.duration is not None), None)


@functools.lru_cache(maxsize=None)
def read_score(text):
    """A score, read once."""
    return Score(text)
