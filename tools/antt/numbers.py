"""numbers: checks that the tables of refusals agree. docs/RULES.md has all of them (2.2). The functions for C (13.3)
give those that 2.4 says; include/zakdomp.h and rust/src/refusal.rs have these and no other, by the same names, and
python/zakdomp.py has words for them. The oracle has all numbers. Exit status: 0 if so."""
import re
import sys

RULES = 'docs/RULES.md'
HEADER = 'include/zakdomp.h'
RUST = 'rust/src/refusal.rs'
PYTHON = 'python/zakdomp.py'
ORACLE = 'oracle/oracle/src/refusal.rs'


def read(path):
    with open(path, encoding='utf-8') as file:
        return file.read()


def rows(rules, begin, end):
    """The columns of the table between two texts, without those that are not by a number or a name."""
    lines = rules[rules.index(begin):rules.index(end)].splitlines()
    return [[column.strip() for column in line.split('|')[1:-1]] for line in lines if re.match(r'\| (`|\d)', line)]


def by_rules(rules):
    """All numbers, and those that a function for C gives."""
    numbers = {int(row[0]) for row in rows(rules, '**2.2 ', '**2.3 ')}
    given = {name: set(map(int, re.findall(r'\d+', row[1]))) for row in rows(rules, '**2.4 ', '**2.5 ')
             for name in re.findall(r'`(\w+)`', row[0])}
    for_c = [name for row in rows(rules, '**13.3** ', '**13.4** ') for name in re.findall(r'`(\w+)`', row[1])]
    return numbers, set().union(*(given.get(name, set()) for name in for_c))


def pairs(text, pattern):
    """The names of a table with their numbers, without their underscores and in small letters."""
    return {(name.replace('_', '').lower(), int(number)) for name, number in re.findall(pattern, text)}


def differences(what, found, due):
    """A line for each entry that a table lacks or has too many."""
    lacking = [f'{what} lacks {entry}' for entry in sorted(due - found)]
    return lacking + [f'{what} has {entry} too many' for entry in sorted(found - due)]


def main():
    numbers, for_c = by_rules(read(RULES))
    header = pairs(read(HEADER), r'\bZAKDOMP_(\w+) = (\d+)') - {('done', 0)}
    rust = read(RUST)
    words = read(PYTHON).split('\nREFUSALS = {')[1].split('\n}')[0]
    python = set(map(int, re.findall(r'^ +(\d+): ', words, re.M)))
    oracle = set(map(int, re.findall(r'^pub const \w+: Refusal = (\d+);', read(ORACLE), re.M)))
    wrong = differences(HEADER, {number for _, number in header}, for_c)
    read_back = {(name.lower(), int(number)) for number, name in re.findall(r'(\d+) => Self::(\w+)', rust)}
    wrong += differences(f'{RUST}, of', read_back, header)
    wrong += differences(f'{RUST}, number', pairs(rust, r'Self::(\w+) => (\d+)'), header)
    wrong += differences(PYTHON, python & for_c, for_c) + differences(PYTHON, python, python & numbers)
    wrong += differences(ORACLE, oracle, numbers)
    for line in wrong:
        print(f'numbers: {line}')
    if not wrong:
        print(f'numbers: {len(numbers)} in all tables alike')
    return bool(wrong)


sys.exit(main())
