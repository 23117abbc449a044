#!/usr/bin/env python3
"""pages.py FOLDER: in the pages below FOLDER, what links to a file that isn't there becomes plain text. A release has fewer files than the repository."""
import os
import re
import sys

LINK = re.compile(r'(?<!!)\[([^\]]*)\]\(([^)#:\s]+)(#[^)]*)?\)')


def mended(page, text):
    def link(found):
        is_there = os.path.exists(os.path.join(os.path.dirname(page), found[2]))
        return found[0] if is_there else found[1]

    # not in the indented blocks, which are transcripts
    return ''.join(line if line.startswith('    ') else LINK.sub(link, line) for line in text.splitlines(keepends=True))


for place, _, names in os.walk(sys.argv[1]):
    for name in names:
        if name.endswith('.md'):
            path = os.path.join(place, name)
            with open(path, encoding='utf-8') as file:
                whole = file.read()
            if mended(path, whole) != whole:
                with open(path, 'w', encoding='utf-8') as file:
                    file.write(mended(path, whole))
