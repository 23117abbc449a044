#!/usr/bin/env python3
"""plots.py PROGRAM: draws docs/plots/ anew, with PROGRAM as humpipe; a picture whose program isn't there is left out, and told.

gnuplot draws what pipelines say, abcm2ps the notes. Each picture gets its title and a description, which are what a screen reader says."""
import os
import re
import shutil
import subprocess
import sys
import tempfile

TOP = os.path.dirname(os.path.dirname(os.path.dirname(os.path.abspath(__file__))))
TITLES = {
    'two_bars': ('Two bars of a song', 'Notes on a staff in three-four time with one flat: f, a and b flat under a slur, c; then a half note a, and f. '
                 'The words are: Row me over, fer-'),
    'intervals': ('Melodic intervals of the soprano', 'Bars from the largest step down to the largest up: 3 minor seconds and 9 major seconds down, '
                  '3 unisons, 1 minor second, 4 major seconds, 1 minor third, 1 major third and 1 fourth up.'),
    'contour': ('The voices of the chorale', 'Four lines as steps over eight bars, with their names at their ends. The soprano is highest where bar 7 '
                'begins, at D5; the bass lowest before bar 8, at D2.'),
    'rhythms': ('Rhythms of the right hand', 'Bars: 4 halves, 6 quarters, 1 eighth, 1 eighth rest, 9 notes of triplets.'),
    'reach': ('The reach of each hand, bar by bar', 'For each of six bars a box from the lowest to the highest note. The left hand goes from D2 '
              'to E4, the right hand from E4 to A5.'),
}


def drawn(name, folder):
    """The picture as its program draws it, or nothing."""
    if name == 'two_bars':
        if not shutil.which('abcm2ps'):
            return None
        subprocess.run(['abcm2ps', '-q', '-g', '-O', 'two_bars', 'examples/plots/two_bars.abc'], cwd=folder, check=True, stdout=subprocess.DEVNULL)
        with open(os.path.join(folder, 'two_bars001.svg'), encoding='utf-8') as file:
            return re.sub(r'<!-- Creat.*-->\n|<!-- CommandLine.*-->\n', '', file.read())
    if not shutil.which('gnuplot'):
        return None
    return subprocess.run(['gnuplot', f'examples/plots/{name}.gp'], cwd=folder, check=True, stdout=subprocess.PIPE, encoding='utf-8').stdout


def described(picture, title, description):
    """A picture with its title and description, and no other title for a screen reader, on white."""
    picture = re.sub(r'<desc>.*?</desc>\n?', '', picture, flags=re.S)
    picture = re.sub(r'(<g id="gnuplot_plot_\d+" >)<title>.*?</title>', r'\1', picture)
    picture = re.sub(r'<title>.*?</title>', f'<title>{title}</title>\n<desc>{description}</desc>', picture, count=1, flags=re.S)
    picture = picture.replace('<svg ', '<svg role="img" ', 1)
    if 'gnuplot' not in picture[:2000].lower():
        picture = picture.replace('</desc>\n', '</desc>\n<rect width="100%" height="100%" fill="white"/>\n', 1)
    return picture


def main():
    if len(sys.argv) != 2:
        sys.exit('usage: plots.py PROGRAM')
    with tempfile.TemporaryDirectory(prefix='humpipe-plots-') as folder:
        os.symlink(os.path.join(TOP, 'examples'), os.path.join(folder, 'examples'))
        os.symlink(os.path.abspath(sys.argv[1]), os.path.join(folder, 'humpipe'))
        for name, (title, description) in TITLES.items():
            picture = drawn(name, folder)
            if picture is None:
                print(f'left out: docs/plots/{name}.svg')
                continue
            with open(os.path.join(TOP, 'docs', 'plots', f'{name}.svg'), 'w', encoding='utf-8') as file:
                file.write(described(picture, title, description))
            print(f'docs/plots/{name}.svg')


if __name__ == '__main__':
    main()
