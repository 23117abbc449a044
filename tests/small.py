"""Small bundles that end well: the plan, the scores by their names, and the text that is written."""


class Small:
    def __init__(self, plan, scores, text):
        self.plan, self.scores, self.text = plan, scores, text

    def bundle(self, last=None, size=None):
        """The bundle; with `last` that score comes last, and only so many bytes of it."""
        names = sorted(self.scores, key=lambda name: name == last)
        parts = [b'--- %s\n%s' % (name.encode(), self.scores[name][:size if name == last else None]) for name in names]
        return self.plan + b''.join(parts)


BARS = b'**kern\n!!up\n4c\n=1\n4d\n*k[]\n=2\n4e\n==\n*-\n'

TRANSPOSED = Small(
    b'out: read a | trans -d 1 -c 2\n', {'a': b'**kern\n*k[]\n4e\n4B-\n8bb\n*-\n'},
    b'**kern\n*Trd1c2\n*k[]\n4f#\n4c\n8ccc#\n*-\n')
IN_CONTEXT = Small(
    b'out: read a | context -n 2\n', {'a': b'**x\na\n*^\nb\tc\n*v\t*v\nd\n*-\n'},
    b'**x\na b\n*^\nb d\tc d\n*v\t*v\n.\n*-\n')
ON_A_GRID = Small(
    b'out: read a | timebase -t 16\n', {'a': b'**kern\n8c\n=2\n8d\n4e\n*-\n'},
    b'**kern\n*tb16\n8c\n.\n=2\n8d\n.\n4e\n.\n.\n.\n*-\n')
BESIDE = Small(
    b'p: read a\nq: read b\nout: assemble p q\n',
    {'a': b'**x\n*^\n1\t2\n*v\t*v\n*-\n', 'b': b'**y\n*^\n7\t8\n*v\t*v\n9\n*-\n'},
    b'**x\t**y\n*^\t*\n*\t*\t*^\n1\t2\t7\t8\n*v\t*v\t*\t*\n*\t*v\t*v\n.\t9\n*-\t*-\n')
EXTRACTED = Small(
    b"out: read a | extract -i '**kern'\n",
    {'a': b'**kern\t**dynam\t**kern\n*^\t*\t*^\n4c\t4e\tp\t4g\t4b\n*v\t*v\t*\t*v\t*v\n4c\tf\t4d\n*-\t*-\t*-\n'},
    b'**kern\t**kern\n*^\t*^\n4c\t4e\t4g\t4b\n*v\t*v\t*\t*\n*\t*v\t*v\n4c\t4d\n*-\t*-\n')
YANKED = Small(b"out: read a | yank -n '^=' -r 1\n", {'a': BARS}, b'**kern\n=1\n4d\n*k[]\n*-\n')
JOINED_ON_A_GRID = Small(
    b'out: read a | timebase -t 4\n', {'a': b'**kern\n*^\n4c\t2e\n*v\t*v\n4d\n*-\n'},
    b'**kern\n*tb4\n*^\n4c\t2e\n*v\t*v\n.\n4d\n*-\n')

# their first score is cut anywhere
CUT = [TRANSPOSED, IN_CONTEXT, BESIDE, EXTRACTED, JOINED_ON_A_GRID]
# their calls fail
FAILED = [TRANSPOSED, IN_CONTEXT, ON_A_GRID, BESIDE, YANKED]
