"""The one line breaker of the tools: a line is broken at spaces that a tool chooses, and words are filled into
lines."""

OPEN, CLOSE = '([{', ')]}'


def closing(line, start):
    """Where the bracket at a place closes."""
    depth = 0
    for place in range(start, len(line)):
        depth += (line[place] in OPEN) - (line[place] in CLOSE)
        if depth == 0:
            return place
    return len(line)


def has_parts(line, start):
    """Whether the bracket at a place holds a tuple or a record."""
    depth = 0
    for letter in line[start:closing(line, start)]:
        depth += (letter in OPEN) - (letter in CLOSE)
        if depth == 1 and letter in ',;':
            return True
    return False


def spaces(line, keeps=has_parts):
    """The spaces of a line: where, how deep in brackets, and what `keeps` says of each bracket that is open there."""
    depth, brackets = 0, []
    for place, letter in enumerate(line):
        if letter in OPEN:
            depth += 1
            brackets.append(keeps(line, place))
        elif letter in CLOSE:
            depth -= 1
            brackets[-1:] = []
        elif letter == ' ':
            yield place, depth, brackets


def broken(line, limit, chosen, indent):
    """A line in lines of at most so many characters. A longer one is broken at the spaces that `chosen` names, if there
    are some; all lines but the first have an indent."""
    places = chosen(line) if len(line) > limit else []
    if not places:
        return [line]
    first, *others = [line[start:end] for start, end in zip([0] + places, places + [len(line)])]
    others = [indent + part.strip() for part in others]
    if first[-1] in ',;':  # `rt fmt` gives the other parts lines of their own
        return [first] + others
    return [piece for part in [first] + others for piece in broken(part, limit, chosen, indent)]


def filled(words, width, indent):
    """Words in as few lines as possible; all lines but the first have an indent."""
    first, *others = words
    lines = [first]
    for word in others:
        if len(lines[-1]) + 1 + len(word) > width:
            lines.append(indent + word)
        else:
            lines[-1] += ' ' + word
    return lines
