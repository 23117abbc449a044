"""Runs recipes on scores: each in a folder that has the score under the name that the recipe reads, all of one recipe by one shell."""
import importlib.util
import os
import re
import shutil
import subprocess
import sys
import tempfile

from . import pages


class Recipe:
    """Commands of a page, what in them is set for a score, and the answer.

    `sets` makes of a score the texts to be replaced in plans and commands, as a reader would: the field, the step of the grid.
    Each of them must be there. `answer` gives the lines that the last command has to print, or write to `output`; `seen` those of them
    that count, `told` what it has to tell, as `heard` makes it. `scores` are scores beside the one that is read under every other name."""

    def __init__(self, name, page, parts, answer, sets=None, seen=None, told=None, heard=None, scores=None, output='out', **wishes):
        self.name, self.page = name, page
        self.parts = [parts] if isinstance(parts, str) else parts
        self.answer, self.sets, self.seen = answer, sets or (lambda score: {}), seen or (lambda lines: lines)
        self.told, self.heard = told or (lambda score: ''), heard or (lambda lines: lines)
        self.scores = scores or (lambda text, score: {})
        self.output, self.wishes = output, wishes
        self.replaced = {}

    def read(self):
        """Takes the text of the recipe from its page."""
        page = pages.Page(self.page)
        found = [page.command(part) for part in self.parts]
        self.command = '\n'.join(command for command, _ in found)
        self.files = {}
        for command, files in found:
            self.files.update(pages.files_of(command, files))
        for old, new in self.replaced.items():
            self.needs(old)
            self.command = self.command.replace(old, new)
            self.files = {name: text.replace(old, new) for name, text in self.files.items()}

    @property
    def lacks(self):
        """A module that this Python doesn't have."""
        return next((name for name in ['pandas'] if any(name in text for text in self.files.values()) and importlib.util.find_spec(name) is None), None)

    def needs(self, old):
        if old not in self.command and not any(old in text for text in self.files.values()):
            raise LookupError(f'{self.page}: {self.name} has no `{old}`')

    def at(self, score):
        """The command and the files for a score."""
        sets = self.sets(score)
        for old in sets if not self.replaced else []:
            self.needs(old)
        if not sets:
            return self.command, self.files
        olds = re.compile('|'.join(re.escape(old) + r'\b' for old in sets))
        return olds.sub(lambda found: sets[found[0]], self.command), \
            {name: olds.sub(lambda found: sets[found[0]], text) for name, text in self.files.items()}


class Runs:
    """The folders of scores, one for each, in which recipes are run."""

    def __init__(self, program):
        # many small files: in memory, where there is such a folder
        self.room = tempfile.mkdtemp(prefix='humpipe-recipes-', dir='/dev/shm' if os.access('/dev/shm', os.W_OK) else None)
        os.mkdir(os.path.join(self.room, 'bin'))
        os.symlink(os.path.abspath(program), os.path.join(self.room, 'bin', 'humpipe'))
        self.surroundings = dict(os.environ, LC_ALL='C.UTF-8', HOME=self.room, PATH=os.path.join(self.room, 'bin') + os.pathsep + os.environ['PATH'],
                                 HUMPIPE=os.path.join(self.room, 'bin', 'humpipe'), PYTHONPATH=os.path.join(pages.TOP, 'python'), PYTHONDONTWRITEBYTECODE='1')
        self.folders = {}

    def close(self):
        shutil.rmtree(self.room)

    def folder(self, text):
        """The folder of a score; made once."""
        if text not in self.folders:
            own = os.path.join(self.room, str(len(self.folders)))
            os.makedirs(os.path.join(own, 'examples'))
            os.symlink(os.path.join(self.room, 'bin', 'humpipe'), os.path.join(own, 'humpipe'))
            self.folders[text] = own, {}
        return self.folders[text][0]

    def write(self, text, name, content):
        """Writes a file into the folder of a score, if it isn't there."""
        own, has = self.folders[text]
        if has.get(name) != content:
            has[name] = content
            place = os.path.join(own, name)
            os.makedirs(os.path.dirname(place), exist_ok=True)
            with open(place, 'wb') as file:
                file.write(content if isinstance(content, bytes) else content.encode('latin-1'))

    def run(self, recipe, scores):
        """What the recipe prints and tells of each of some scores: a text and its reading each."""
        script = []
        for text, score in scores:
            command, files = recipe.at(score)
            own = self.folder(text)
            others = dict.fromkeys(pages.scores_of([command, *files.values()]), text)
            for name, content in {**others, **files, **recipe.scores(text, score)}.items():
                self.write(text, name, content)
            script.append(f'cd {own} && {{ {{\n{command}\n}} >out 2>told; }}\n')
        if recipe.command.startswith('python3 '):
            in_turn = [sys.executable, os.path.join(pages.TOP, 'tests', 'recipes', 'in_turn.py'), recipe.command.split()[1]]
            subprocess.run(in_turn + [self.folder(text) for text, _ in scores], env=self.surroundings, check=False)
        else:
            subprocess.run(['bash'], input=''.join(script).encode(), env=self.surroundings, stdout=subprocess.DEVNULL, check=False)
        return [tuple(self.lines(text, name) for name in (recipe.output, 'told')) for text, _ in scores]

    def lines(self, text, name):
        own, has = self.folders[text]
        place = os.path.join(own, name)
        has.pop(name, None)
        if not os.path.exists(place):
            return []
        with open(place, 'rb') as file:
            found = file.read().decode('latin-1')
        os.remove(place)
        return found.split('\n')[:-1] if found.endswith('\n') else found.split('\n') if found else []


def differs(recipe, score, found):
    """What is wrong with what a recipe printed, or nothing."""
    lines, told = found[0], recipe.heard(found[1])
    want, seen, complaint = recipe.answer(score), recipe.seen(lines), recipe.told(score)
    is_told = '\n'.join(told) == complaint
    if seen == want and is_told:
        return None
    return {'prints': seen, 'has to print': want, 'tells': told} if seen != want else {'tells': told, 'has to tell': [complaint]}
