"""The transcripts of a page: code blocks that begin with `$ `, their commands, and what stands under these."""


def blocks(lines):
    """The code blocks of a page, indented or fenced: the number of the first line, and the lines."""
    k = 0
    while k < len(lines):
        if lines[k].startswith('```'):
            first = k = k + 1
            while k < len(lines) and not lines[k].startswith('```'):
                k += 1
            yield first, lines[first:k]
        elif lines[k].startswith('    ') and (k == 0 or not lines[k - 1].strip() or lines[k - 1].startswith('#')):
            first = k
            while k < len(lines) and (lines[k].startswith('    ') or not lines[k].strip()):
                k += 1
            block = [line[4:] for line in lines[first:k]]
            while block and not block[-1].strip():
                block.pop()
            yield first, block
        k += 1


def is_transcript(block):
    return bool(block) and block[0].startswith('$ ')


def steps(first, block):
    """The commands of a transcript: the number of the line, the command, and the lines under it."""
    found = []
    for number, line in enumerate(block, first + 1):
        if found and found[-1][1][0].endswith("<<'EOF'") and found[-1][1][-1] != 'EOF':
            found[-1][1].append(line)
        elif line.startswith('$ '):
            found.append((number, [line[2:]], []))
        elif not found[-1][2] and found[-1][1][-1].endswith('\\'):
            found[-1][1].append(line)
        else:
            found[-1][2].append(line)
    return [(number, '\n'.join(command), shown) for number, command, shown in found]


def is_shown(shown, lines):
    """Whether these lines are what is shown, where `..` stands for any lines."""
    parts = [[]]
    for line in shown:
        if line == '..':
            parts.append([])
        else:
            parts[-1].append(line)
    if len(parts) == 1:
        return lines == parts[0]
    front, end = parts[0], parts[-1]
    if len(lines) < len(front) + len(end) or lines[:len(front)] != front or lines[len(lines) - len(end):] != end:
        return False
    place, last = len(front), len(lines) - len(end)
    for part in parts[1:-1]:
        while place + len(part) <= last and lines[place:place + len(part)] != part:
            place += 1
        if place + len(part) > last:
            return False
        place += len(part)
    return True
