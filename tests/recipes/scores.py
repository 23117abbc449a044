"""Scores as archives hold them, made from a seed: upbeats, changes of meter, syncopation, ties, tuplets, graces, rests, splits, joins,
exchanges, chords, slurs, beams, fermatas, words, figures, labels, comments, repeats, line ends of CR and LF, words in Latin-1."""
import random
from fractions import Fraction

STEPS = 'cdefgab'
METERS = ['2/4', '3/4', '4/4', '3/8', '6/8', '2/2', '5/4', '9/8']
# durations and how they are written, the longest first
WRITTEN = {Fraction(*value): text for text, value in {
    '0': (2, 1), '4%5': (5, 4), '8%9': (9, 8), '1': (1, 1), '2.': (3, 4), '2': (1, 2), '4.': (3, 8), '3': (1, 3), '4': (1, 4), '8.': (3, 16), '6': (1, 6), '8': (1, 8),
    '12': (1, 12), '16': (1, 16), '24': (1, 24)}.items()}
SYLLABLES = ['la', 'la', 'la,', 'Ky-', '(ri-', '-e)', 'Row', '-ver,', 'morn', 'r', "o'er", '"Ah!"', 'gl\xfcck-', '-lich', '(e-', 'le-', '-i-', 'son.']
FIGURES = ['I', 'V7', 'ii6', 'IV', 'vi', 'V/V', 'I64']
LOUD = ['p', 'f', 'mf', '<', '>', 'sfz']
TITLES = ['!!!OTL: The mill', '!!!COM: Dvo\xf8k, A.', '!!!OTL@@DE: Fr\xfchling', '!! An answer.', '!!!ODT: 1788']


class Event:
    """A note, a chord or a rest of a voice."""

    def __init__(self, at, duration):
        self.at, self.duration = at, duration
        self.pitches = []
        self.is_held = False
        self.tie = ''
        self.graces = []


class Stretch:
    """A part of a bar in which a part has so many voices."""

    def __init__(self, start, end, voices):
        self.start, self.end, self.voices = start, end, voices


class Bar:
    def __init__(self, start, length, line):
        self.start, self.length, self.line = start, length, line
        self.stretches = {}
        self.meter = None
        self.swap = None


class Maker:
    """Makes one score. What a recipe can't have is left out by its name in `without`."""

    def __init__(self, seed, kerns=(1, 4), without=(), words=None, resting=0.05):
        self.dice = random.Random(seed)
        self.without = set(without)
        self.kerns = self.dice.randint(*kerns)
        self.words, self.resting = words, resting
        self.levels = sorted(self.dice.randint(-14, 10) for _ in range(self.kerns))

    def choice(self, texts):
        """One of some texts; those in Latin-1 if that isn't left out."""
        return self.dice.choice([text for text in texts if text.isascii() or 'Latin-1' not in self.without])

    def may(self, what, chance):
        return what not in self.without and self.dice.random() < chance

    # what there is

    def make(self):
        self.columns_of_score()
        self.has_triplets, self.has_chords = self.may('triplets', 0.4), self.may('chords', 0.4)
        self.has_splits, self.has_graces = self.may('splits', 0.5), self.may('graces', 0.4)
        self.shortest = Fraction(1, 16) if self.may('sixteenths', 0.4) else Fraction(1, 8)
        self.has_ties, self.has_marks = self.may('ties', 0.6), self.may('marks', 0.8)
        self.bars = self.some_bars()
        for part in range(self.kerns):
            for bar in self.bars:
                bar.stretches[part] = self.stretches(bar)
            self.pitch(part)
        self.exchanges()
        return self

    def columns_of_score(self):
        """The columns from the left: a part, its words, figures, loudness."""
        self.kinds = []
        self.sung = self.dice.randrange(self.kerns) if self.words or self.words is None and self.may('words', 0.5) else None
        for part in range(self.kerns):
            self.kinds.append(('**kern', part))
            if part == self.sung:
                self.kinds.append(('**text', part))
            elif self.may('dynam', 0.2):
                self.kinds.append(('**dynam', part))
        if self.may('harm', 0.2):
            self.kinds.insert(self.dice.choice([0, len(self.kinds)]), ('**harm', 0))

    def some_bars(self):
        """The bars: an upbeat, a first bar without a barline, new meters, barlines in the middle of a bar, numbers that come twice."""
        dice = self.dice
        self.first_meter = meter = dice.choice(METERS)
        bars = self.first_bar(Fraction(meter))
        start, number = bars[0].length if bars else Fraction(0), dice.choice([1, 1, 1, 1, 33])
        for _ in range(dice.randint(1, 4)):
            bar = Bar(start, Fraction(meter), f'={number}' + ('-' if not bars else self.barline(['', '', '', '', '||', ':|!|:'])))
            if bars and self.may('new meter', 0.15):
                bar.meter = meter = dice.choice(METERS)
                bar.length = Fraction(meter)
            start += bar.length
            bars.append(bar)
            if bar.length > Fraction(1, 4) and self.may('odd barlines', 0.15):
                bars.append(self.rest_of_bar(bar))
                if self.may('short bars', 0.3):
                    number += 1
                    bars[-1].line = f'={number}:|!'
            number += 0 if self.may('odd barlines', 0.05) else 1
        return bars

    def first_bar(self, length):
        if self.may('upbeat', 0.6):
            return [Bar(Fraction(0), Fraction(self.dice.randint(1, max(1, int(length * 8) - 1)), 8), None)]
        return [Bar(Fraction(0), length, None)] if self.may('no first barline', 0.2) else []

    def barline(self, ends):
        return self.dice.choice(ends) if 'odd barlines' not in self.without else ''

    def rest_of_bar(self, bar):
        """Divides a bar by a barline without a number."""
        end = bar.start + bar.length
        bar.length = Fraction(self.dice.randint(1, int(bar.length * 8) - 1), 8)
        return Bar(bar.start + bar.length, end - bar.start - bar.length, self.dice.choice(['=:|!', '=||', '=|!:', '=:|!|:']))

    def stretches(self, bar):
        """The voices of a part in a bar."""
        places = [Fraction(0), bar.length]
        if self.has_splits and self.dice.random() < 0.4:
            place = self.shortest * self.dice.randrange(int(bar.length / self.shortest))
            if place > 0:
                places.insert(1, place)
        found = []
        for start, end in zip(places, places[1:]):
            count = self.dice.choice([1, 2, 2, 3]) if self.has_splits and len(places) > 2 - (self.dice.random() < 0.3) else 1
            if found and count > 1 and len(found[-1].voices) > 1:
                count = 1
            found.append(Stretch(bar.start + start, bar.start + end, [self.rhythm(bar.start + start, end - start) for _ in range(count)]))
        return found

    def rhythm(self, start, whole):
        """A voice that fills this time."""
        if self.may('bar rests', self.resting) and whole in WRITTEN:
            return [Event(start, whole)]
        at, voice = Fraction(0), []
        while at < whole:
            for duration in self.triplet(whole - at) or [self.duration(whole - at)]:
                voice.append(Event(start + at, duration))
                at += duration
        return voice

    def triplet(self, most):
        """Three thirds, or one and two, of a half, a quarter or an eighth; seldom."""
        for group in Fraction(1, 2), Fraction(1, 4), Fraction(1, 8):
            if self.has_triplets and group <= most and self.dice.random() < 0.1:
                third = group / 3
                parts = self.dice.choice([[third] * 3, [2 * third, third], [third, 2 * third]])
                if all(part in WRITTEN for part in parts):
                    return parts
        return None

    def duration(self, most):
        return self.dice.choice([one for one in WRITTEN if one <= min(most, 1) and one % self.shortest == 0] or [most])

    def pitch(self, part):
        """Gives a part its notes, ties and graces."""
        self.height, before = 28 + self.levels[part], None
        for bar in self.bars:
            for stretch in bar.stretches[part]:
                before = self.first_voice(stretch.voices[0], before, stretch.start > bar.start and len(stretch.voices) > 1)
                for voice in stretch.voices[1:]:
                    for event in voice:
                        self.note(event)
                        self.graces(event)
                if len(stretch.voices) > 1 and stretch is not bar.stretches[part][-1]:
                    before = None

    def first_voice(self, voice, before, may_hold):
        """The left voice, which may go on under a split from the event before, and has ties."""
        for k, event in enumerate(voice):
            goes_on = before is not None and before.at + before.duration == event.at
            if may_hold and k == 0 and goes_on and before.duration + event.duration in WRITTEN and self.may('held over splits', 0.6):
                before.duration += event.duration
                event.is_held, event.pitches = True, before.pitches
                continue
            if before is not None and before.pitches and self.has_ties and self.dice.random() < 0.15:
                before.tie, event.tie, event.pitches = {'': '[', ']': '_'}[before.tie], ']', before.pitches
            else:
                self.note(event)
            self.graces(event)
            before = event if event.pitches else None
        return before

    def note(self, event):
        """A note, a chord or a rest, mostly near the note before."""
        dice = self.dice
        if dice.random() < 0.85 or 'rests' in self.without:
            self.height = min(max(self.height + dice.choice([-7, -4, -3, -2, -1, -1, -1, 0, 0, 1, 1, 1, 2, 3, 4, 7, 8]), 10), 48)
            others = dice.choice([[2], [4], [2, 4], [7]]) if self.has_chords and dice.random() < 0.2 else []
            event.pitches = [self.spelled(self.height + more) for more in [0] + others]

    def graces(self, event):
        if self.has_graces and self.dice.random() < 0.1:
            event.graces = [self.grace(self.height + self.dice.choice([-1, 1, 2])) for _ in range(self.dice.randint(1, 2))]

    def spelled(self, step):
        octave, letter = divmod(step, 7)
        name = STEPS[letter] * (octave - 3) if octave >= 4 else STEPS[letter].upper() * (4 - octave)
        return name + self.dice.choice(['', '', '', '', '', '#', '-', 'n', '##', '--'] if 'accidentals' not in self.without else [''])

    def grace(self, step):
        return self.dice.choice(['8', '16', '']) + self.spelled(step) + self.dice.choice(['q', 'qq'])

    def exchanges(self):
        """Bars in which two neighbouring columns that don't split have changed places."""
        for bar in self.bars[1:]:
            if self.may('exchanges', 0.1) and len(self.kinds) > 1:
                left = self.dice.randrange(len(self.kinds) - 1)
                if all(len(stretch.voices) == 1 for name, part in self.kinds[left:left + 2] if name == '**kern' for stretch in bar.stretches[part]):
                    bar.swap = left

