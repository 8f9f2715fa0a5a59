"""Writes the functions for C that find the corners of a frame, or checks whether they are what would be written: see
tools/entries. Behind what is searched, each takes the nine numbers of a frame's parameters, the buffers,
and the places of its results.
"""
import pathlib
import string
import sys

ONE_LINE = 60  # the arguments of a call are in its line up to this length
SHORT = 10  # longer calls whose arguments are all this short have them in one line of their own
NUMBERS = {'ring': 'u32', 'threshold': 'f32', 'window': 'u32', 'least_neighbours': 'u32', 'centroid_radius': 'u32',
           'merge_radius': 'f32', 'level_count': 'u32', 'minimum_side': 'usize', 'search_radius': 'u32'}
BUFFERS = {'map': '&mut [f32]', 'levels': '&mut [u8]',
           'sx': '&mut [f32]', 'sy': '&mut [f32]', 'ss': '&mut [f32]', 'sn': '&mut [u32]',
           'cx': '&mut [f32]', 'cy': '&mut [f32]', 'cs': '&mut [f32]', 'cn': '&mut [u32]'}
RESULTS = {'count': '&mut usize', 'ties': '&mut u64'}
LISTS = {'seeds': ['sx', 'sy', 'ss', 'sn'], 'corners': ['cx', 'cy', 'cs', 'cn']}
FIELDS = ['xs', 'ys', 'strengths', 'neighbours']
USES = ['corner_list::CornerBuffer', 'frame_params::params_of']

CODE = string.Template("""\
// Written by tools/entries; not edited by hand.
ghost use Rattle.std.specs.Prelude.{$exact};
ghost use Rattle.corner_list.specs.CornerList.{slices};
ghost use Rattle.frame_params.specs.Params.{params};
ghost use Rattle.frame.specs.Frame.{buffers};
ghost use Rattle.$crate.specs.$promise.{$record};

$uses

// Finds the corners of $what, with peaks chosen by $choice values. They are written to the start of
// the corner buffer (cx, cy, cs, cn). `count` gets their number, and `ties` the number of ties of the peaks found before
// merging.
#[unsafe(no_mangle)]
pub extern "C" fn $name(
$parameters) -> u8
    ensures { $record $exact
        (params ring threshold window least_neighbours centroid_radius merge_radius level_count
        minimum_side search_radius) $given
        (buffers map.old levels.old
        (slices sx.old sy.old ss.old sn.old)
        (slices cx.old cy.old cs.old cn.old))
        count.old ties.old result
        (buffers map.new levels.new
        (slices sx.new sy.new ss.new sn.new)
        (slices cx.new cy.new cs.new cn.new))
        count.new ties.new }
{
    let p = $params;
$lists    let answer = $find;
    match answer {
        Ok(found) => {
            *count = found.corners;
            *ties = found.ties;
            0
        }
        Err(refusal) => u8::from(refusal),
    }
}
""")

# what is searched: the crate, how it is given, the function that searches it, and the promise with its record
SEARCHED = [
    {'crate': 'capi_frame', 'what': 'an image of w by h pixels', 'ending': '',
     'slices': {'img': '&[u8]'}, 'sides': {'w': 'usize', 'h': 'usize'}, 'home': 'frame', 'function': 'find_corners',
     'promise': 'Finding', 'record': 'CornersFound'},
    {'crate': 'capi_photo', 'what': 'an uploaded photograph', 'ending': '_pgm',
     'slices': {'upload': '&[u8]'}, 'sides': {}, 'home': 'pgm_frame', 'function': 'find_pgm_corners',
     'promise': 'Photographs', 'record': 'PhotographCorners'},
]


def listed(parts, indent):
    """A line for each part."""
    return ''.join(f'{indent}{part},\n' for part in parts)


def call(function, arguments):
    """A call in one line, with a line for all arguments, or with a line for each."""
    line = ', '.join(arguments)
    if len(line) <= ONE_LINE:
        return f'{function}({line})'
    rows = [line] if all(len(argument) <= SHORT for argument in arguments) else arguments
    return f'{function}(\n{listed(rows, " " * 8)}    )'


def buffer(name):
    """The slices of a list as one buffer."""
    fields = [f'{field}: {given}' for field, given in zip(FIELDS, LISTS[name])]
    return f'    let mut {name} = CornerBuffer {{\n{listed(fields, " " * 8)}    }};\n'


def file(entry, exact):
    """The file of a function: path and text."""
    given = {**entry['slices'], **entry['sides']}
    choice, start = ('exact', 'zakdomp_find_exact_corners') if exact else ('computed', 'zakdomp_find_corners')
    name, flag = start + entry['ending'], str(exact).lower()
    parts = {
        **entry, 'name': name, 'choice': choice, 'exact': flag,
        'uses': '\n'.join(sorted(f'use {used};' for used in [*USES, f'{entry["home"]}::{entry["function"]}'])),
        'parameters': listed(map(': '.join, {**given, **NUMBERS, **BUFFERS, **RESULTS}.items()), ' ' * 4),
        'given': ' '.join([f'{part}.now' for part in entry['slices']] + list(entry['sides'])),
        'params': call('params_of', NUMBERS),
        'lists': ''.join(buffer(name) for name in LISTS),
        'find': call(entry['function'], [*given, 'p', flag, 'map', 'levels', *(f'&mut {name}' for name in LISTS)]),
    }
    return pathlib.Path('crates') / entry['crate'] / 'src' / f'{choice}.rt', CODE.substitute(parts)


def main():
    differing = 0
    for path, text in (file(entry, exact) for entry in SEARCHED for exact in (False, True)):
        if sys.argv[1:] != ['--compare']:
            path.write_text(text, encoding='utf-8')
        elif not path.exists() or path.read_text(encoding='utf-8') != text:
            print(f'entries: {path} is not what tools/entries writes')
            differing = 1
    sys.exit(differing)


if __name__ == '__main__':
    main()
