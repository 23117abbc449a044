"""How a made score is written: its records, and what archives write round a note."""
from fractions import Fraction

from . import scores
from .music import Score, Unsound


def made(seed, **wishes):
    """The score of a seed. Where a voice is added under a held note and nothing else tells the time, it's made anew."""
    for more in range(100):
        text = Writer(scores.Maker(f'{seed} {more}', **wishes).make()).text()
        try:
            Score(text)
        except Unsound:
            continue
        return text
    raise AssertionError(f'no score of seed {seed}')


class Writer:
    """Writes the bars of a maker as records. A column is a place of the opening record and a voice."""

    def __init__(self, maker):
        self.maker, self.dice = maker, maker.dice
        self.lines = []
        self.columns = [(k, 0) for k in range(len(maker.kinds))]
        self.is_slurred, self.late = {}, []

    def text(self):
        self.head()
        for number, bar in enumerate(self.maker.bars):
            self.begin(bar, number)
            self.fill(bar)
            if bar.swap is not None:
                self.exchange(bar.swap)
        if self.maker.may('odd barlines', 0.9):
            self.same('==')
        self.same('*-')
        self.lines += self.remarks(0.3)
        end = '\r\n' if self.maker.may('CR and LF', 0.15) else '\n'
        return ''.join(line + end for line in self.lines).encode('latin-1')

    # records

    def line(self, tokens):
        self.lines.append('\t'.join(tokens))

    def same(self, token):
        self.line([token for _ in self.columns])

    def steer(self, chosen):
        self.line([chosen.get(column, '*') for column in self.columns])

    def kind(self, column):
        return self.maker.kinds[column[0]]

    def remarks(self, chance):
        return [self.maker.choice(scores.TITLES) for _ in range(3) if self.maker.may('comments', chance)]

    def head(self):
        dice = self.dice
        self.lines += self.remarks(0.4)
        self.line([self.kind(column)[0] for column in self.columns])
        self.line(['*clefG2' if self.kind(column)[0] == '**kern' else '*' for column in self.columns])
        self.only_kern(dice.choice(['*k[]', '*k[f#]', '*k[b-e-]']))
        self.only_kern('*M' + self.maker.first_meter)
        if self.maker.may('labels', 0.3):
            self.same('*>[A,A,B]')
            self.same('*>A')
            self.label_at = dice.randrange(len(self.maker.bars)) + 1
        else:
            self.label_at = None

    def only_kern(self, token):
        self.line([token if self.kind(column)[0] == '**kern' else '*' for column in self.columns])

    def begin(self, bar, number):
        if bar.line:
            self.same(bar.line)
            if self.maker.may('odd barlines', 0.03):
                self.same('=:|!')
        self.join_late()
        if number == self.label_at:
            self.same('*>B')
        if bar.meter:
            self.only_kern('*M' + bar.meter)
        if self.maker.may('comments', 0.1):
            self.lines += self.remarks(0.5)
        if self.maker.may('comments', 0.1):
            self.line(['!LO:TX:a:t=dolce' if k == 0 else '!' for k, _ in enumerate(self.columns)])
        if self.maker.may('null records', 0.05):
            self.same(self.dice.choice(['*', '!', '.']))
        if bar.swap is not None:
            self.exchange(bar.swap)

    def exchange(self, left):
        self.line(['*x' if k in (left, left + 1) else '*' for k in range(len(self.columns))])
        self.columns[left], self.columns[left + 1] = self.columns[left + 1], self.columns[left]

    # a bar

    def fill(self, bar):
        """The records of a bar: joins, splits, graces and notes at each time."""
        parts = range(self.maker.kerns)
        times = sorted({event.at for part in parts for stretch in bar.stretches[part] for voice in stretch.voices for event in voice}
                       | {stretch.start for part in parts for stretch in bar.stretches[part]})
        for time in times:
            for part in parts:
                for stretch in bar.stretches[part]:
                    if stretch.end == time:
                        self.join(part, len(stretch.voices))
                for stretch in bar.stretches[part]:
                    if stretch.start == time:
                        self.split(part, len(stretch.voices))
                    elif stretch.start < time < stretch.end and len(stretch.voices) > 1 and self.maker.may('inner exchanges', 0.1):
                        self.exchange(next(k for k, column in enumerate(self.columns) if column[0] == self.place(part)))
            self.moment(bar, time)
        for part in parts:
            self.late.append((part, len(bar.stretches[part][-1].voices)))
        if not self.maker.may('late joins', 0.2) or bar.swap is not None or bar is self.maker.bars[-1]:
            self.join_late()

    def join_late(self):
        """Joins of the bar before, in front of the barline or behind it."""
        for part, count in self.late:
            self.join(part, count)
        self.late = []

    def place(self, part):
        return next(k for k, kind in enumerate(self.maker.kinds) if kind == ('**kern', part))

    def split(self, part, count):
        place = self.place(part)
        for voice in range(1, count):
            self.steer({(place, voice - 1): '*^'})
            self.columns.insert(self.columns.index((place, voice - 1)) + 1, (place, voice))

    def join(self, part, count):
        place = self.place(part)
        if count > 1:
            self.steer({(place, voice): '*v' for voice in range(count)})
            self.columns = [column for column in self.columns if column[0] != place or column[1] == 0]

    def events(self, bar, time):
        """What begins now, by its column."""
        return {(self.place(part), number): event for part in range(self.maker.kerns) for stretch in bar.stretches[part]
                if stretch.start <= time < stretch.end for number, voice in enumerate(stretch.voices)
                for event in voice if event.at == time and not event.is_held}

    def moment(self, bar, time):
        begun = self.events(bar, time)
        if not begun:
            return
        for k in range(max(len(event.graces) for event in begun.values())):
            self.line([begun[column].graces[k] if column in begun and k < len(begun[column].graces) else '.' for column in self.columns])
        self.line([self.token(column, begun) for column in self.columns])

    def token(self, column, begun):
        name, part = self.kind(column)
        if name == '**kern':
            return self.note(column, begun[column]) if column in begun else '.'
        own = begun.get((self.place(part), 0))
        if name == '**text':
            is_new = own is not None and own.pitches and own.tie in ('', '[') and self.dice.random() < 0.8
            return self.maker.choice(scores.SYLLABLES) if is_new else '.'
        if self.dice.random() < 0.3:
            return self.dice.choice(scores.FIGURES if name == '**harm' else scores.LOUD)
        return '.'

    # a token

    def note(self, column, event):
        duration = scores.WRITTEN[event.duration]
        if not event.pitches:
            return duration + self.dice.choice(['r', 'r', 'r', 'ryy', 'r;' if self.maker.may('fermatas', 0.5) else 'r', 'ddr'])
        stem = self.dice.choice(['', '/', '\\']) if self.maker.has_marks else ''
        return ' '.join(self.part_of(column, event, duration, pitch, stem, k == 0) for k, pitch in enumerate(event.pitches))

    def part_of(self, column, event, duration, pitch, stem, is_first):
        """A note with its marks; those behind it in any order, as archives have them."""
        dice, maker = self.dice, self.maker
        front, marks = '', [stem]
        if event.tie in ('[', ):
            front += '['
        if event.tie in ('_', ']'):
            marks.append(event.tie)
        if maker.has_marks and is_first:
            if event.duration < Fraction(1, 4):
                marks.append(dice.choice(['', 'L', 'J', 'LL']))
            if self.is_slurred.get(column) and dice.random() < 0.4:
                marks.append(')')
                self.is_slurred[column] = False
            if not self.is_slurred.get(column) and maker.may('slurs', 0.2):
                front = '(' + front
                self.is_slurred[column] = True
            if maker.may('fermatas', 0.08):
                marks.append(';')
            marks.append(dice.choice(['', '', '', '', "'", '^', 't', 'x', 'yy', '}']))
            if maker.may('phrases', 0.05):
                front = '{' + front
        dice.shuffle(marks)
        return front + duration + pitch + ''.join(marks)
