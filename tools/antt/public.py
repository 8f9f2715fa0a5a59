"""public: checks that the lists of public functions are complete. Each function that src/ marks `pub` is in
docs/RULES.md: those for C in 13.3, those that refuse in 2.4 and every other in 1.8. Each that 2.4 names is public and
has a field of `Total` (crates/demands/specs/Total.antt), but those that hand out pixels, whose number is that of the
function beside them; and each field of `Total` is named by 2.4. The table of calls
(crates/demands/specs/Occurring.antt) has a row for each, with the numbers of 2.4. Exit status: 0 if so."""
import glob
import re
import sys

RULES = 'docs/RULES.md'
TOTAL = 'crates/demands/specs/Total.antt'
OCCURRING = 'crates/demands/specs/Occurring.antt'
PUBLIC = re.compile(r'^ *pub (extern "C" )?fn (\w+)', re.MULTILINE)
SAID = re.compile(r'^ *(?:(?:∷ )?row .* )?\(((?:\d+ ∷ )+)\[\]\)$')
PARTS = {'1.8': ('**1.8 ', '## 2 '), '2.4': ('**2.4 ', '**2.5 '), '13.3': ('**13.3**', '**13.4**')}


def read(path):
    with open(path, encoding='utf-8') as file:
        return file.read()


def named(rules, part):
    """The functions in the first two columns of a table's rows, and those that its last column says hand out
    pixels."""
    begin, end = PARTS[part]
    rows = [line.split('|') for line in rules[rules.index(begin):rules.index(end)].splitlines()
            if line.startswith('| `')]
    first = [re.findall(r'`(?:\w+::)?(\w+)`', ''.join(row[1:3] if part == '1.8' else row[1:2])) for row in rows]
    beside = [re.findall(r'`(\w+)` hands out no pixels', row[-2]) for row in rows]
    return {name for names in first for name in names}, {name for names in beside for name in names}


def numbers(rules):
    """The numbers of each function by 2.4."""
    begin, end = PARTS['2.4']
    rows = [line.split('|') for line in rules[rules.index(begin):rules.index(end)].splitlines()
            if line.startswith('| `')]
    return {name: sorted(map(int, re.findall(r'\d+', row[2]))) for row in rows
            for name in re.findall(r'`(\w+)`', row[1])}


def occurring(table, fields):
    """The numbers of each row of the table of calls, with the functions that the comment above it names."""
    names = []
    for line in table[table.index('-- ---- the table'):].splitlines():
        said = SAID.match(line)
        if line.lstrip().startswith('--'):
            names = [name for name in re.findall(r'\w+', line) if name in fields]
        elif said:
            yield names, sorted(map(int, re.findall(r'\d+', said[1])))


def main():
    rules = read(RULES)
    functions, for_c = set(), set()
    for path in glob.glob('crates/*/src/*.rt'):
        for c, name in PUBLIC.findall(read(path)):
            (for_c if c else functions).add(name)
    small, (refusing, beside), c_table = named(rules, '1.8')[0], named(rules, '2.4'), named(rules, '13.3')[0]
    fields = set(re.findall(r'^  pub «?(\w+)»? :', read(TOTAL), re.MULTILINE))
    wrong = [f'{name} is public, and neither 1.8 nor 2.4 names it' for name in functions - small - refusing]
    wrong += [f'{name} is for C, and 13.3 does not name it' for name in for_c - c_table]
    wrong += [f'{name} is named by 13.3, and no function for C' for name in c_table - for_c]
    wrong += [f'{name} is named by 2.4, and not public' for name in refusing - functions]
    wrong += [f'{name} is named by 2.4, and no field of Total' for name in refusing - beside - fields]
    wrong += [f'{name} is a field of Total, and 2.4 does not name it' for name in fields - refusing]
    rows, by_rules = list(occurring(read(OCCURRING), fields)), numbers(rules)
    wrong += [f'{name} has no row of Occurring' for name in fields - {name for names, _ in rows for name in names}]
    wrong += [f'{name} has other numbers in Occurring than 2.4 says' for names, said in rows for name in names
              if said != by_rules.get(name)]
    for line in sorted(wrong):
        print(f'public: {line}')
    return bool(wrong)


sys.exit(main())
