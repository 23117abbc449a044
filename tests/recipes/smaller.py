"""Cuts a score down to the fewest records that still differ."""
from .music import Score, Unsound


def smallest(text, differs):
    """Takes records away, many first, then one and two, as long as what is left is a score and differs."""
    end = b'\r\n' if b'\r\n' in text else b'\n'
    lines = text.split(end)[:-1]

    def holds(some):
        candidate = b''.join(line + b'\n' for line in some)
        try:
            score = Score(candidate)
        except (Unsound, IndexError, ValueError):
            return False
        return differs(candidate, score)

    if end != b'\n' and not holds(lines):
        return text
    size = max(1, len(lines) // 2)
    while size:
        k, is_cut = 0, False
        while k < len(lines):
            some = lines[:k] + lines[k + size:]
            if holds(some):
                lines, is_cut = some, True
            else:
                k += 1
        if not is_cut or size > 1:
            size = size // 2
    lines = pairs_away(lines, holds)
    return b''.join(line + b'\n' for line in lines)


def pairs_away(lines, holds):
    """Takes away two records at once, such as a split and its join."""
    first = 0
    while first < len(lines):
        for second in range(first + 1, min(len(lines), first + 30)):
            some = lines[:first] + lines[first + 1:second] + lines[second + 1:]
            if holds(some):
                lines = some
                break
        else:
            first += 1
    return lines
