"""cover: checks that each public function of src/ has two wrong programs or more, and that no edit changes a
definition alone. An edit of must-fail/ or more-edits/ is one of a function if a text that it replaces is in that
function, or in a private function or a constant of its crate that it uses, directly or not. A function that does
nothing has none. With --all it names the edits of each function. Exit status: 0 if so."""
import re
import sys
from pathlib import Path

LEAST = 2
CRATES = {folder.name for folder in Path('crates').iterdir()}
ITEM = re.compile(r'^ *(?P<public>pub )?(?:pub\(crate\) )?(?:extern "C" )?'
                  r'(?P<kind>fn|const|static|struct|enum|impl|mod) (?P<name>\w+)')
USED = re.compile(r'(?:\b(\w+)::)?\b(?:([a-z]\w*)\(|([A-Z]\w*))')


class Item:
    """A function, a constant or another part of a file, with its lines."""

    def __init__(self, path, found, lines):
        self.path, self.lines = path, lines
        self.name, self.kind, self.public = found['name'], found['kind'], bool(found['public'])


def items(path):
    """The parts of a file of code; the comment above one is its own."""
    parts, above = [], []
    for line in path.read_text(encoding='utf-8').splitlines():
        found = ITEM.match(line)
        if found:
            parts.append(Item(path, found, above + [line]))
            above = []
        elif line.lstrip().startswith(('//', '#[')) or not line.strip():
            above.append(line)
        elif parts:
            parts[-1].lines += above + [line]
            above = []
    return parts


def used(item, crate):
    """The private functions and the constants that an item uses, directly or not. A name is that of its own file, if it
    is there."""
    seen, wait = [item], [item]
    while wait:
        user = wait.pop()
        text = '\n'.join(line for line in user.lines if not line.lstrip().startswith('//'))
        for name in {call or constant for home, call, constant in USED.findall(text) if home not in CRATES}:
            named = [other for other in crate if other.name == name and other.kind in ('fn', 'const', 'static')]
            own = [other for other in named if other.path == user.path]
            for other in own or named:
                if other not in seen and not (other.kind == 'fn' and other.public):
                    seen.append(other)
                    wait.append(other)
    return seen


def edits(folder):
    """Each edit of a crate, with the texts that it replaces and their files."""
    for path in sorted([*folder.glob('must-fail/*.edit'), *folder.glob('more-edits/*.edit')]):
        file, pairs = '', []
        for line in path.read_text(encoding='utf-8').splitlines():
            if line.startswith('file: '):
                file = line[6:]
            elif line.startswith('old: '):
                pairs.append((file, line[5:]))
        yield path, pairs


def main(show):
    few, functions = 0, 0
    for folder in sorted(Path('crates').iterdir()):
        crate = [item for path in sorted(folder.glob('src/*.rt')) for item in items(path)]
        tried = list(edits(folder))
        for path, pairs in tried:
            if not any(file.startswith('src/') for file, _ in pairs):
                print(f'cover: {path} changes no code, and shows nothing')
                few += 1
        for item in crate:
            if item.kind != 'fn' or not item.public or item.lines[-1] == '{}':
                continue
            functions += 1
            texts = [(part.path.relative_to(folder).as_posix(), '\n'.join(part.lines)) for part in used(item, crate)]
            own = [path for path, pairs in tried
                   if any(file == where and old in text for file, old in pairs for where, text in texts)]
            if show:
                print(f'{folder.name} {item.name}: {", ".join(path.stem for path in own)}')
            if len(own) < LEAST:
                print(f'cover: {folder.name}: {item.name} has {len(own)} of {LEAST} wrong programs')
                few += 1
    if not few:
        print(f'cover: each of {functions} public functions has {LEAST} wrong programs or more')
    return bool(few)


sys.exit(main('--all' in sys.argv[1:]))
