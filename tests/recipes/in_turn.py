"""in_turn.py SCRIPT FOLDER..: runs the Python script of each folder there, all in one Python."""
import contextlib
import os
import sys
import traceback

import humpipe  # noqa: F401


def run(script):
    """What a script prints goes to `out`, what goes wrong to `told`."""
    with open('out', 'w', encoding='latin-1') as out, open('told', 'w', encoding='latin-1') as told, contextlib.redirect_stdout(out):
        with open(script, encoding='utf-8') as file:
            text = file.read()
        try:
            exec(compile(text, script, 'exec'), {'__name__': '__main__'})
        except Exception:
            traceback.print_exc(file=told)


for folder in sys.argv[2:]:
    os.chdir(folder)
    run(sys.argv[1])
