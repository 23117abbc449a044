"""Which commands of the pages are neither recipes with an answer nor examples."""
import re

from . import pages

PAGES = ['README.md', 'docs/QUESTIONS.md', 'docs/CLEANING.md', 'docs/FROM_HUMDRUM.md', 'docs/PYTHON.md']
# what is shown of one score alone: a fault, a grid that is too coarse, a text as it comes, a call that another page tries
EXAMPLES = [
    r'humpipe examples/soprano.hpl', r'.*upbeat\.hpl.*', r'.*syncopated\.hpl.*', r'humpipe examples/(in_e_flat|concert)\.hpl.*', r'.*untouched\.hpl.*',
    r'humpipe concert\.hpl.*', r'.*shorter\.krn.*', r"humpipe <\(echo 'out: read [a-z0-9]+\.krn.*", r"humpipe <\(echo \"out: read examples/chorale.krn \| extract -i .*",
    r'.*carol_and_back\.krn.*', r'awk .*Isoprn.*', r'humpipe tune\.hpl', r'python3 (tune|refused|reach|corpus|stream|latin|table|octaves)\.py', r'python3 -m humpipe .*',
]


def plain(command):
    """A command without what a reader changes: the score's name, the number of lines."""
    command = command.replace('\\\n', '').replace('./humpipe', 'humpipe')
    command = re.sub(r'''^sed (?:'[^']*'|"[^"]*") (\S+\.hpl) \| humpipe /dev/stdin''', r'humpipe \1', command)
    return re.sub(r" \| (head -n \d+|tail -n \d+|sed -n '7,10p'|sort -k1,1nr -k2|grep '\[-\+\]\[PMmAd\]')", '', command)


def unlisted(recipes):
    tried = {plain(command) for recipe in recipes for command in commands(recipe)}
    for path in PAGES:
        for number, command, _ in pages.Page(path).commands:
            is_run = re.search(r'\bhumpipe\b|\bpython3 |\bawk .*\.(awk|krn)', command) and not command.startswith(('gnuplot', 'cp ', 'mkdir', 'tar', 'sudo', 'cd '))
            if is_run and plain(command) not in tried and not any(re.fullmatch(one, plain(command), re.S) for one in EXAMPLES):
                yield f'{path}:{number}', command


def commands(recipe):
    page = pages.Page(recipe.page)
    return [page.command(part)[0] for part in recipe.parts]
