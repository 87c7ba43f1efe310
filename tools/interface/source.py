# What the Rattle source says of the public calls.
import re
import sys
from dataclasses import dataclass
from math import prod
from pathlib import Path
from textwrap import wrap

WIDTH = 100  # of what is written
# The figure below which a lent buffer is refused.
LENT = {'memory': 'TABLE_BYTES', 'room': 'MOST_BYTES', 'snapshot': 'SNAPSHOT_BYTES'}
SLICES = ('&[u8]', '&mut [u8]')
# A plain type's size, which is its alignment too.
SIZES = {'bool': 1, 'u8': 1, 'u16': 2, 'u32': 4, 'i32': 4, 'u64': 8, 'i64': 8, 'usize': 8}
SPECS = Path('crates/model/specs')
COMMENT = r'((?: *//.*\n)*)'


@dataclass
class Figure:
    doc: list
    name: str
    type: str
    value: int


@dataclass
class Field:  # of a struct, or a parameter
    doc: list
    name: str
    type: str


@dataclass
class Struct:
    doc: list
    name: str
    fields: list

    def besides_state(self):
        return [f for f in self.fields if f.type != 'State']


@dataclass
class Call:
    doc: list
    name: str
    params: list
    result: str
    refusals: list  # their names, in order
    changes: bool  # it stands among the calls that change state

    def lent(self):
        """What it writes to besides the table memory."""
        return [p for p in self.params if p.type == '&mut [u8]' and p.name != 'memory']

    def full_doc(self):
        refused = f'Refusals in order: {", ".join(self.refusals)}.' if self.refusals else 'Never refused.'
        return [*self.doc, '', refused]


def read(path):
    return Path(path).read_text(encoding='utf-8')


def uncommented(comment):
    return [line.strip().removeprefix('//').removeprefix(' ') for line in comment.splitlines()]


def figures():
    """Each is a number, or a product of figures above it, or such a product divided by a number."""
    found, values = [], {}
    for comment, name, kind, value in re.findall(COMMENT + r'pub const (\w+): (\w+) = (.*);', read('crates/model/src/figures.rt')):
        factors, _, divisor = value.partition(' / ')
        values[name] = prod(values.get(factor) or int(factor) for factor in factors.split(' * ')) // int(divisor or 1)
        found.append(Figure(uncommented(comment), name, kind, values[name]))
    return found


def refusals():
    """{number: (name, words)}: its name in code, and the documents' words at its definition; where calls define it differently, the words of each."""
    named = re.findall(r'^    (\w+) = (\d+),$', read('crates/model/src/numbers.rt'), re.M)
    names = {int(n): re.sub(r'\B(?=[A-Z])', '_', name).upper() for name, n in named}
    words = {}
    for path in sorted(SPECS.glob('*.antt'), key=lambda p: (p.stem != 'Refusals', p)):  # document 01's words first
        for n, text in re.findall(r'(?:^--|;) (\d+): "([^"]+)"', read(path), re.M):
            words.setdefault(int(n), []).append(text)
    if names.keys() != words.keys():
        sys.exit(f'numbers with a name and numbers with a definition differ: {sorted(names.keys() ^ words.keys())}')
    return {n: (names[n], ', or '.join(words[n])) for n in sorted(names)}


def orders():
    """{call: [number]}: a call's refusals in the order of its definition."""
    specs = '\n'.join(read(p) for p in sorted(SPECS.glob('*.antt')))
    number = {row: int(n) for row, n in re.findall(r'^(\w+) [^=\n]*= record \{ number = (\d+);', specs, re.M)}
    lists = re.findall(r'^refusal_(\w+) [^=]*=\s+first_of\s+\((.*?)\s∷ \[\]\)', specs, re.M | re.S)
    return {call: [number[row.split()[0]] for row in rows.split('∷')] for call, rows in lists}


def structs():
    """{name: struct}: all that have the layout of C."""
    found = {}
    for source in sorted(Path('crates').glob('*/src/*.rt')):
        for comment, name, body in re.findall(COMMENT + r'#\[repr\(C\)\]\n(?:#\[derive\(.*\)\]\n)?pub struct (\w+) \{\n((?: .*\n)*)\}', read(source)):
            fields = [Field(uncommented(above), *rest) for above, *rest in re.findall(COMMENT + r' +pub (\w+): (.*),\n', body)]
            found[name] = Struct(uncommented(comment), name, fields)
    return found


def exports():
    """{name: (parameters, result)}: what the static library defines for programs in other languages."""
    source = read('crates/ledger_c/src/lib.rt')
    found = re.findall(r'^#\[unsafe\(no_mangle\)\]\npub extern "C" fn pingvratha_(\w+)\(([^)]*)\) -> (\w+)', source, re.M)
    if len(found) != source.count('extern'):
        sys.exit('crates/ledger_c/src/lib.rt exports something in another form')
    return {name: (pairs(params), result) for name, params, result in found}


def pairs(params):
    return [tuple(pair.split(': ')) for pair in re.split(r',\s*', params.strip()) if pair]


def calls(numbers):
    """The exported calls, as the library ledger has them, in the order of its modules."""
    found, order, exported = [], orders(), exports()
    for module in re.findall(r'^pub mod (\w+);', read('crates/ledger/src/lib.rt'), re.M):
        call = COMMENT + r'pub fn pingvratha_(\w+)\(([^)]*)\) -> (\w+)'
        for comment, name, params, result in re.findall(call, read(f'crates/ledger/src/{module}.rt')):
            if exported.pop(name, None) != (pairs(params), result):
                sys.exit(f'crates/ledger_c/src/lib.rt does not export pingvratha_{name} as crates/ledger/src/{module}.rt has it')
            fields = [Field([], *pair) for pair in pairs(params)]
            refused = [numbers[n][0] for n in order[name.removesuffix('_refusal')]] if fields else []
            found.append(Call(uncommented(comment), name, fields, result, refused, module != 'look'))
    if exported:
        sys.exit(f'crates/ledger_c/src/lib.rt exports what ledger has not: {", ".join(exported)}')
    return found


def version():
    """Of the crate for Rust, and the newest in the list of changes."""
    crate = re.search(r'^version = "(.*)"', read('bindings/rust/Cargo.toml'), re.M)[1]
    newest = re.search(r'^## (\S+):', read('CHANGELOG.md'), re.M)[1]
    return crate if crate == newest else sys.exit(f'CHANGELOG.md begins with {newest}, bindings/rust/Cargo.toml has {crate}')


def array(kind):
    """Of an array or a reference to one, element and length."""
    return re.fullmatch(r'&?\[(\w+); (\w+)\]', kind)


class Interface:
    def __init__(self):
        self.figures, self.refusals, self.named, self.version = figures(), refusals(), structs(), version()
        self.values = {f.name: f.value for f in self.figures}
        self.calls = calls(self.refusals)
        self.about = uncommented(re.match(COMMENT, read('crates/ledger/src/lib.rt'))[0])
        self.structs = []  # those that hosts see, each behind what it is made of
        for call in self.calls:
            for kind in [*(p.type for p in call.params), call.result]:
                self.need(kind)
        if bare := [x.name for x in [*self.figures, *self.structs, *self.calls] if not x.doc]:
            sys.exit(f'without a comment for hosts: {", ".join(bare)}')

    def need(self, kind):
        struct = self.named.get(array(kind)[1] if array(kind) else kind)
        if struct and struct not in self.structs:
            for field in struct.fields:
                self.need(field.type)
            self.structs.append(struct)

    def layout(self, kind):
        """Size and alignment."""
        if match := array(kind):
            size, align = self.layout(match[1])
            return size * (self.values[match[2]] if match[2] in self.values else int(match[2])), align
        if kind in SIZES:
            return SIZES[kind], SIZES[kind]
        fields = self.named[kind].fields
        *_, end = self.places(fields)
        align = max(self.layout(f.type)[1] for f in fields)
        return -(-end // align) * align, align

    def places(self, fields):
        """Where each field begins; last, where the last one ends."""
        at = 0
        for field in fields:
            size, align = self.layout(field.type)
            at = -(-at // align) * align
            yield at
            at += size
        yield at


def wrapped(lines, front, width=WIDTH):
    """A comment's paragraphs and points, each filled anew, behind `front`."""
    out = []
    for paragraph in re.split(r'\n *\n', '\n'.join(lines)):
        out += [front.rstrip()] if out else []
        for block in re.split(r'\n(?=- )', paragraph):
            hanging = front + '  ' * block.startswith('- ')
            out += wrap(' '.join(block.split()), width, initial_indent=front, subsequent_indent=hanging, break_long_words=False, break_on_hyphens=False)
    return out
