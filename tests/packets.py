"""Lists of packets, as humpipe-many reads and writes them."""
import io

MOST = 65516


def put(to, *parts):
    """Writes a list of packets."""
    for part in parts:
        for at in range(0, len(part), MOST):
            piece = part[at : at + MOST]
            to.write(b'%04x' % (len(piece) + 4) + piece)
    to.write(b'0000')


def get(source):
    """Reads a list of packets."""
    parts = []
    while size := int(source.read(4), 16):
        parts.append(source.read(size - 4))
    return parts


def packets(*parts):
    """A list of packets as bytes."""
    out = io.BytesIO()
    put(out, *parts)
    return out.getvalue()


def case(scores):
    """A case as bytes: pairs of names and scores."""
    return b''.join(packets(name, text) for name, text in scores) + packets()


def answer(source):
    """Reads an answer: its status, the text, and the line that is told."""
    text = b''.join(get(source))
    status, _, told = b''.join(get(source)).partition(b' ')
    return int(status), text, told


def answers(out):
    """All answers of some bytes."""
    source, found = io.BytesIO(out), []
    while source.tell() < len(out):
        found.append(answer(source))
    return found
