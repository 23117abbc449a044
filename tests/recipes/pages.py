"""The recipes of the pages: the commands of their transcripts, and the files that these show."""
import os
import re
import sys

TOP = os.path.dirname(os.path.dirname(os.path.dirname(os.path.abspath(__file__))))
sys.path.append(os.path.join(TOP, 'docs'))
from transcripts import blocks, is_transcript, steps  # noqa: E402

SCORES = {f'examples/{name}' for name in os.listdir(os.path.join(TOP, 'examples')) if name.endswith('.krn')}


class Page:
    """A page's commands, each with the files that the page shows before it."""

    def __init__(self, path):
        self.path = path
        with open(os.path.join(TOP, path), encoding='utf-8') as page:
            lines = page.read().split('\n')
        self.commands, files = [], {}
        for first, block in blocks(lines):
            for number, command, shown in steps(first, block) if is_transcript(block) else []:
                words = command.split()
                if words[0] == 'cat' and len(words) == 2:
                    files = dict(files, **{words[1]: ''.join(line + '\n' for line in shown)})
                else:
                    self.commands.append((number, command, files))

    def command(self, part):
        """The first command with this text, and the files that it may name."""
        for _, command, files in self.commands:
            if part in command:
                return command, files
        raise LookupError(f'{self.path} has no command with `{part}`')


def text_of(name, files):
    """A file that a command names: of the repository, or as the page shows it."""
    own = os.path.join(TOP, name)
    if os.path.exists(own):
        with open(own, encoding='utf-8') as file:
            return file.read()
    return files.get(name)


def files_of(command, files):
    """The plans and scripts that a command names, and those that a script names, with their texts."""
    found = {}
    for name in re.findall(r'[A-Za-z0-9_./]+\.(?:hpl|awk|py)\b', command):
        text = text_of(name, files)
        if text is not None:
            found[name] = text
            if name.endswith('.py'):
                found.update(files_of(text, files))
    return found


def scores_of(texts):
    """The scores that plans and commands read; of the examples also those that `sed` puts in the place of another."""
    found = set()
    for text in texts:
        found |= set(re.findall(r'[A-Za-z0-9_./]+\.krn', text))
        found |= {name for name in SCORES if re.search(r'\b' + name[len('examples/'):-len('.krn')] + r'\b', text)}
    return found
