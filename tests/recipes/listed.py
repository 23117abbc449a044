"""The recipes of the pages with their answers."""
import re
from math import gcd

from . import answers, dirt
from .editions import second
from .music import read_score
from .running import Recipe

QUESTIONS, CLEANING, FROM_HUMDRUM, PYTHON, COMMANDS = (f'docs/{name}.md' for name in ('QUESTIONS', 'CLEANING', 'FROM_HUMDRUM', 'PYTHON', 'COMMANDS'))


def part(old='-f 4', which=-1):
    """Sets the field of a plan to a part of the score."""
    return lambda score: {old: f'-f {score.parts()[which]}'}


def step_of(score):
    return answers.grid(score)[0]


def on_grid(*more, old=8):
    """Sets the step of the grid to the one that the recipe for grids gives, and what else is set."""
    def sets(score):
        found = {f'-t {old}': f'-t {step_of(score)}'}
        for one in more:
            found.update(one(score))
        return found
    return sets


def step_in_command(old=8):
    return lambda score: {f'step={old}': f'step={step_of(score)}'}


def data(lines):
    """Data records and barlines alone."""
    return [line for line in lines if not line.startswith(('*', '!'))]


def of_part(answer, which=-1):
    return lambda score: answer(score, score.parts()[which])


def listed():
    return readme() + questions() + cleaning() + from_humdrum() + python() + commands()


def readme():
    return [
        Recipe('first run', 'README.md', './humpipe examples/first.hpl', of_part(answers.melody), part('-f 1')),
        Recipe('first count', 'README.md', 'examples/first.hpl | tr', of_part(answers.seconds), part('-f 1')),
    ]


def questions():
    step, alone = step_in_command(), ['inner exchanges']
    return [
        Recipe('intervals', QUESTIONS, 'soprano.hpl | grep -v', of_part(answers.intervals), part()),
        Recipe('one interval', QUESTIONS, "soprano.hpl | humpipe /dev/stdin", of_part(answers.seconds), part()),
        Recipe('grid', QUESTIONS, 'durations.hpl | awk', answers.grid),
        Recipe('leaps', QUESTIONS, 'humpipe examples/leaps.hpl', of_part(answers.leaps, 0), part('-f 1', 0), seen=data),
        Recipe('quarters', QUESTIONS, 'quarters.hpl | awk', answers.quarters, on_grid(step), seen=data, told=answers.odd_bars),
        Recipe('chords', QUESTIONS, 'chords.hpl | awk', answers.chords, on_grid(step), told=answers.odd_bars),
        Recipe('outer voices', QUESTIONS, 'outer_voices.hpl | awk', lambda score: answers.outer(score, score.parts()[0], score.parts()[-1]),
               on_grid(step, part('-f 1', 0), part('-f 4', -1)), told=answers.odd_bars, kerns=(2, 4), without=alone),
        Recipe('parallels', QUESTIONS, 'parallels.hpl | awk', answers.parallels, on_grid(), kerns=(2, 4)),
        Recipe('syllables', QUESTIONS, 'syllables.hpl | awk', sung(answers.syllables), on_grid(step, voice_and_words), words=True, without=alone),
        Recipe('cadences', QUESTIONS, 'cadences.hpl | awk', answers.cadences, on_grid(step)),
        Recipe('phrases', QUESTIONS, 'phrases.hpl | awk', of_part(answers.phrases), on_grid(step, part()), without=alone),
        Recipe('bars', QUESTIONS, 'humpipe examples/tenor.hpl', lambda score: answers.passage(score, score.parts()[0], *some_bars(score)),
               lambda score: {'-f 2': f'-f {score.parts()[0]}', '-r 5-6': '-r {}-{}'.format(*some_bars(score))}, seen=data),
        Recipe('section', QUESTIONS, 'humpipe examples/section_b.hpl', lambda score: answers.section(score, score.parts()[-1], 'B'), part(), seen=data),
        Recipe('rhythm', QUESTIONS, 'rhythm.hpl | grep', of_part(answers.rhythm), part('-f 2')),
        Recipe('three durations', QUESTIONS, 'three_durations.hpl | grep', of_part(answers.without_chords), part('-f 1'),
               told=of_part(answers.with_chords)),
        Recipe('reach', QUESTIONS, 'compass.hpl | humpipe /dev/stdin', lambda score: answers.reach(score, score.parts()[0])),
        Recipe('reach of the right hand', QUESTIONS, "sed 's/$/ | extract -f 2/' examples/compass.hpl", lambda score: answers.reach(score, score.parts()[1]), kerns=(2, 2)),
        Recipe('pitch classes', QUESTIONS, 'pitch_classes.hpl | awk', answers.classes, on_grid(old=24)),
        Recipe('table', QUESTIONS, 'notes.hpl < examples/carol.krn | awk', of_part(answers.table), part(), output='notes.tsv', without=alone),
        Recipe('table of exchanged columns', QUESTIONS, 'notes.hpl < examples/carol.krn | awk', lambda score: [], part(), seen=lambda lines: [],
               heard=without_lines, told=of_part(exchanged)),
        Recipe('notes by bar', QUESTIONS, ['notes.hpl < examples/carol.krn | awk', 'awk -f bars.awk'], of_part(answers.struck_by_bar), part(), without=alone),
        Recipe('transposed', QUESTIONS, 'humpipe examples/in_e_flat.hpl | head', lambda score: answers.transposed(score, 6, 10)[:12]),
        Recipe('there and back', QUESTIONS, 'examples/there_and_back.hpl >', answers.there_and_back, output='there_and_back.krn'),
        Recipe('editions', QUESTIONS, 'editions.hpl | awk', edition(answers.editions), on_grid_of_editions(part('-f 1', 0)), without=alone,
               scores=lambda text, score: {'examples/song_second.krn': second(text, score.parts()[0])}),
        Recipe('words of editions', QUESTIONS, "words.hpl | awk", of_words, lambda score: {'-t 8': f'-t {step_of(score)}', '-f 2': '-f {}'.format(score.parts('**text')[0])},
               scores=lambda text, score: {'examples/song_second.krn': other_words(text)}, words=True),
        Recipe('where', QUESTIONS, 'steps.hpl', lambda score: answers.where(score, ['examples/chorale.krn', 'examples/carol.krn']), ),
    ]


def cleaning():
    """Of an unclean score the script has to give back the clean one."""
    def given(name, made):
        return lambda text, score: {name: made(text)}

    return [
        Recipe('clean', CLEANING, 'awk -f examples/clean.awk', dirt.lines_of, scores=given('dirty.krn', dirt.untidy), output='clean.krn'),
        Recipe('several scores', CLEANING, '("part" n ".krn")', dirt.lines_of, output='part2.krn', without=['CR and LF', 'comments'],
               scores=lambda text, score: {'many.krn': score.source + text}),
        Recipe('blanks', CLEANING, 'blanks.krn > tabs.krn', dirt.lines_of, scores=given('blanks.krn', dirt.blanks), output='tabs.krn', without=['chords']),
        Recipe('joins', CLEANING, 'joined.krn > apart.krn', dirt.lines_of, scores=given('joined.krn', dirt.joined), output='apart.krn', kerns=(2, 4)),
        Recipe('bar rests', CLEANING, 'rests.krn > mended.krn', dirt.lines_of, scores=given('rests.krn', dirt.bar_rests), output='mended.krn', resting=0.6,
               without=['short bars']),
        Recipe('graces', CLEANING, 'grace.krn > graced.krn', dirt.lines_of, scores=given('grace.krn', dirt.graced), output='graced.krn', kerns=(2, 4)),
        Recipe('proof', CLEANING, 'for file in folder', proofs,
               scores=lambda text, score: {'folder/a.krn': dirt.faulty(text, '04c')[0], 'folder/b.krn': dirt.faulty(text, '4cd')[0], 'folder/c.krn': text}),
    ]


def from_humdrum():
    return [
        Recipe('first', FROM_HUMDRUM, 'as_a_plan.hpl | head', lambda score: answers.melody(score, score.parts()[-1])[:3], part()),
        Recipe('census', FROM_HUMDRUM, 'notes++', of_part(answers.census), part()),
        Recipe('pc', FROM_HUMDRUM, '% 12', of_part(answers.pitch_classes), part()),
        Recipe('freq', FROM_HUMDRUM, '440', of_part(answers.frequencies), part()),
        Recipe('xdelta', FROM_HUMDRUM, 'semitones.hpl |', of_part(answers.steps), part()),
    ]


def python():
    """Texts are UTF-8 there, unless an encoding is said."""
    return [
        Recipe('two voices of a part', PYTHON, 'python3 tenors.py', lambda score: answers.divided(score, score.parts()[0]),
               lambda score: {'spine == 2': f'spine == {score.parts()[0]}'}, without=['Latin-1']),
        Recipe('intervals in pandas', PYTHON, 'python3 intervals.py', of_part(answers.sorted_intervals), part(), without=['Latin-1', 'splits']),
        Recipe('leaps in pandas', PYTHON, 'python3 bass_leaps.py', of_part(answers.octaves_of_bass, 0), part('-f 1', 0), without=['Latin-1', 'inner exchanges']),
    ]


def commands():
    """Two parts that were taken apart, without their null records, are put together in time."""
    alone = ['held over splits', 'graces', 'exchanges', 'inner exchanges']
    return [
        Recipe('parts by time', COMMANDS, 'humpipe by_time.hpl', lambda score: answers.together(score, score.parts()[0], score.parts()[-1]),
               lambda score: {'-t 4': f'-t {step_of(score)}'}, seen=data, kerns=(2, 4), without=alone,
               scores=lambda text, score: {'low.krn': dirt.part(text, score.parts()[0]), 'top.krn': dirt.part(text, score.parts()[-1])}),
    ]


def edition(answer):
    """The answer on a score and its second edition."""
    return lambda score: answer(score, read_score(second(score.source, score.parts()[0])), score.parts()[0])


def on_grid_of_editions(*more):
    """The step that both editions need."""
    def sets(score):
        steps = [int(step_of(one)) for one in (score, read_score(second(score.source, score.parts()[0])))]
        found = {'-t 8': f'-t {steps[0] * steps[1] // gcd(*steps)}'}
        for one in more:
            found.update(one(score))
        return found
    return sets


def other_words(text):
    """An edition with other words."""
    return text.replace(b'la,', b'La,').replace(b'Row', b'.').replace(b'morn', b'even')


def of_words(score):
    return answers.words(score, read_score(other_words(score.source)), score.parts('**text')[0])


def sung(answer):
    """The voice with words, and its words."""
    return lambda score: answer(score, *sung_fields(score))


def sung_fields(score):
    words = score.parts('**text')[0]
    return max(field for field in score.parts() if field < words), words


def voice_and_words(score):
    voice, words = sung_fields(score)
    return {'-f 1': f'-f {voice}', '-f 2': f'-f {words}'}


def some_bars(score):
    """The first two numbers of bars, or the bar 0."""
    numbers = sorted({record.bar for record in score.records if record.is_barline and record.bar is not None}) or [0]
    return numbers[0], numbers[min(1, len(numbers) - 1)]


def proofs(score):
    """What is told of a wrong duration, a wrong pitch, and the score itself."""
    duration, pitch = dirt.faulty(score.source, '04c')[1], dirt.faulty(score.source, '4cd')[1]
    return [f'folder/a.krn\thumpipe: stage 4 (recip), line {duration}: K3', f'folder/b.krn\thumpipe: stage 2 (semits), line {pitch}: K1', 'folder/c.krn\tvalid']


def exchanged(score, field):
    """What is told where two columns of a part change places."""
    is_so = any([own for token, own in zip(record.tokens, record.fields) if token == '*x'] == [field, field] for record in score.records)
    return 'humpipe: stage N (cleave), line N: C1' if is_so else ''


def without_lines(told):
    return [re.sub(r'(stage|line) \d+', r'\1 N', line) for line in told]
