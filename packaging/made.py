"""Files that a script makes anew."""
import sys


def write_or_check(path, text, wrong):
    """Writes a file's text. With the word --check it changes nothing, and the script ends by what is wrong if the file has another text."""
    if '--check' not in sys.argv:
        with open(path, 'w', encoding='utf-8') as file:
            file.write(text)
        return
    with open(path, encoding='utf-8') as file:
        if file.read() != text:
            sys.exit(wrong)
