"""The lines of crates/ that are too long: names them, or breaks them and has `rt fmt` lay them out (see tools/lines).

A line is broken as far out as possible: after `in`, after the `=` of a definition, before an arrow, between the parts
of a tuple, before an argument. The words and their order stay. Files that a script writes are left to it.
"""
import functools
import pathlib
import re
import subprocess
import sys

from breaking import CLOSE, OPEN, broken, filled, spaces

CRATES = pathlib.Path('crates')
LIMITS = {'src': 120, 'specs': 120, 'proofs': 140}
SPARE = 10  # how much shorter a broken line is made: `rt fmt` may indent it further
ARROWS = {'→', '∙'}
RELATIONS = {'≡', '⊎', '×', '++', '≤', '<', '↔'}
SUMS = {'∷', '+', '&&', '||'}
NOT_AFTER = ARROWS | RELATIONS | SUMS | {'λ', 'let', '-', '*', '/', ':', '←', 'elim', 'module', 'pub', 'if', 'then',
                                         'else', 'record', '↦', 'abbrev', 'where', '|', '%', '^'}
NOT_BEFORE = {'=', ':', 'in', '*', '-', '/', '%', '|', '↦', 'where'}
DECLARED = re.compile(r'\s*((pub|abbrev|unfoldable) )*\S+ : ')
IN, EQUALS, PART, ARROW, RELATION, BRACKET, WORD, SUM = range(8)  # how well a line is broken, the best first
# which breaks are taken before others of the same depth, if they leave so large a part of a line before them
PREFERRED = ({PART, ARROW}, 0), ({RELATION}, 0.3), ({BRACKET}, 0.2), ({EQUALS, WORD}, 0.3), ({SUM}, 0.3)


def binds(line, place):
    """Whether a place lies between a `let` and its `=`, or among the variables of a λ."""
    depth = 0
    for at in range(place - 1, -1, -1):
        depth += (line[at] in CLOSE) - (line[at] in OPEN)
        if depth < 0 or depth == 0 and re.match(r' = |[^ ]\. ', line[max(at - 1, 0):]):
            return False
        if depth == 0 and (line[at] == 'λ' or re.match(r'[ (]let ', line[max(at - 1, 0):])):
            return True
    return False


def kind(line, start, place, in_parts):
    """How well a line is broken at a space, or None where it may not be."""
    before, after = line[start:place].split(' ')[-1], line[place + 1:].split(' ')[0]
    if in_parts or line[place - 1] in ',;':  # a tuple or a record may have begun on a line before
        return PART if line[place - 1] in ',;' else None
    if before == 'in':
        return IN
    if before == '=':
        return EQUALS
    if before in NOT_AFTER or after in NOT_BEFORE or re.match(r'\.[^.\s]', after):
        return None
    for operators, found in (ARROWS, ARROW), (RELATIONS, RELATION), (SUMS, SUM):
        if after in operators:
            return found
    return BRACKET if after[:1] in OPEN else WORD


def breaks(line):
    """The spaces where a line may be broken: the brackets around each, how well, and where."""
    start = len(line) - len(line.lstrip())
    for place, depth, brackets in spaces(line):
        if place > start:
            found = kind(line, start, place, brackets and brackets[-1])
            if found is not None and not binds(line, place):
                yield depth, found, place


def chosen(limit, line):
    """Where a line is broken."""
    width = limit - SPARE
    ways, indent = list(breaks(line)), len(line) - len(line.lstrip())
    if not ways:
        return []
    least = min(depth for depth, _, _ in ways)
    outer = [(found, place) for depth, found, place in ways if depth == least]
    if any(found == IN for found, _ in outer):
        return [place for found, place in outer if found == IN]
    defined = [place for found, place in outer if found == EQUALS and place <= width]
    if defined and not line.strip().startswith('let ') and line[-1] not in ';,':
        return defined[:1]
    if all(found == PART for found, _ in outer):
        return [outer[0][1]]
    fitting = [way for way in ways if way[2] <= width and (way[2] > indent + 30 or way[1] == PART)]
    ways = fitting or [way for way in ways if way[2] <= limit]
    for depth in sorted({depth for depth, _, _ in ways}):
        here = [(found, place) for at, found, place in ways if at == depth]
        for kinds, share in PREFERRED:
            places = [place for found, place in here if found in kinds and place > width * share]
            if places:
                return [max(places)]
    return [max(place for _, _, place in ways)] if ways else []


def comment(lines, limit):
    """A comment of several lines, filled."""
    head = re.match(r'\s*(--|//) ', lines[0]).group()
    first, *words = ' '.join(line.strip()[3:] for line in lines).split(' ')
    return filled([head + first, *words], limit, head)


def imported(line, limit):
    """A `use` line in several."""
    head, names, end = re.match(r'(.*\.\{)(.*)(\};?)$', line).groups()
    names = [name + ',' for name in names.split(', ')]
    return [f'{head}{part[:-1]}{end}' for part in filled(names, limit + 1 - len(head) - len(end), '')]


def contract(line, limit):
    """A line of a contract in several: what follows its first line is indented once more."""
    indent = len(line) - len(line.lstrip())
    return broken(line, limit, functools.partial(chosen, limit), ' ' * (indent + 4))


def pieces(text):
    """The lines of a text, those of a comment together."""
    found = []
    for line in text.split('\n'):
        told = re.match(r'\s*(--|//) ', line)
        if told and '-- ----' not in line and found and found[-1][1] == told.group():
            found[-1][0].append(line)
        else:
            found.append(([line], told and told.group()))
    return found


def text_of(text, limit):
    """A text whose long lines are broken. `rt fmt` then gives each line its indent: it has to be more than that of
    its declaration."""
    lines, declared = [], 0
    for piece, told in pieces(text):
        line = piece[0]
        indent = len(line) - len(line.lstrip())
        begins = not lines or not lines[-1] or lines[-1].endswith('where') or DECLARED.match(line)
        if begins or indent < declared:
            declared = indent
        if all(len(each) <= limit for each in piece):
            lines += piece
        elif told:
            lines += comment(piece, limit)
        elif re.match(r'((ghost|unfoldable|pub) )*use .*\};?$', line):
            lines += imported(line, limit)
        elif re.match(r'\s*(requires|ensures)\*?( \w+)? \{ ', line):
            lines += contract(line, limit)
        else:
            indents = ' ' * (indent if indent > declared else declared + 4)
            lines += broken(line, limit, functools.partial(chosen, limit), indents)
    return '\n'.join(lines)


def is_written(path):
    """Whether a script of tools/ writes a file."""
    return 'Written by tools/' in path.read_text(encoding='utf-8').split('\n', 1)[0]


def files(crates):
    """The files of some crates, each with the limit of its lines."""
    for crate in crates:
        for folder, limit in LIMITS.items():
            for path in sorted((CRATES / crate / folder).rglob('*')):
                if path.suffix in {'.rt', '.antt'} and not is_written(path):
                    yield path, limit


def long_lines(path, limit):
    return [number for number, line in enumerate(path.read_text(encoding='utf-8').split('\n'), 1) if len(line) > limit]


def main():
    if sys.argv[1:2] == ['--break']:
        for _ in range(4):
            for path, limit in files(sys.argv[2:]):
                if long_lines(path, limit):
                    path.write_text(text_of(path.read_text(encoding='utf-8'), limit), encoding='utf-8')
            for crate in sys.argv[2:]:
                subprocess.run(['rt', 'fmt'], cwd=CRATES / crate, check=False)
        return
    found = [f'lines: {path}:{number} is above {limit} characters\n'
             for path, limit in files(sorted(folder.name for folder in CRATES.iterdir()))
             for number in long_lines(path, limit)]
    print(''.join(found), end='')
    sys.exit(bool(found))


if __name__ == '__main__':
    main()
