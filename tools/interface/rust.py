# The declarations for Rust: structs and calls as they are, and each call over slices. Laid out as rustfmt would.
import re

from interface.source import SLICES, WIDTH, array, wrapped

DERIVED = '#[derive(Clone, Copy, Debug, PartialEq, Eq)]'
ABOUT = """//! The plain calls, for hosts that place state and table memory themselves. For all others there
//! is [`Node`](crate::Node).
//!"""
OPENING = """//!
//! Written by tools/bindings from the Rattle source.

// Where a field's name or a number's says all, there are no words besides.
#![allow(missing_docs, clippy::too_many_arguments)]

use core::mem::{offset_of, size_of};"""
SAFETY = """///
/// # Safety
///
/// State and table memory are as the last call left them."""
WRAPPERS = """
// Safety but for the premise: every pointer is that of a slice and goes with its length, and a slice
// that is written to is borrowed by this call alone."""


def called(indent, head, items, end, most=WIDTH):
    """A list in parentheses, on one line if there is place, else an item a line."""
    line = f'{indent}{head}({", ".join(items)}){end}'
    if len(line) <= WIDTH and len(', '.join(items)) <= most:
        return [line]
    return [f'{indent}{head}(', *(f'{indent}    {item},' for item in items), f'{indent}){end}']


class Plain:
    def __init__(self, interface):
        self.i = interface
        self.variants = {name: ''.join(map(str.capitalize, name.split('_'))) for name, _ in interface.refusals.values()}
        links = {f.name: f.name for f in interface.figures} | {c.name: c.name for c in interface.calls if '_' in c.name}
        self.links = links | {name: f'Refusal::{variant}' for name, variant in self.variants.items()}
        self.linked = re.compile(rf'\b({"|".join(self.links)})\b')

    def lines(self):
        yield from [*ABOUT.split('\n'), *self.comment(self.i.about, '//! '), *OPENING.split('\n')]
        for f in self.i.figures:
            yield from ['', *self.comment(f.doc), f'pub const {f.name}: {f.type} = {f.value};']
        yield from self.refusals()
        for struct in self.i.structs:
            yield from self.struct(struct)
        yield from [*self.layouts(), *self.raw(), *WRAPPERS.split('\n')]
        for call in self.i.calls:
            yield from self.wrapper(call)

    def comment(self, lines, front='/// '):
        return wrapped([self.linked.sub(lambda m: f'[`{self.links[m[0]]}`]', line) for line in lines], front)

    def refusals(self):
        yield from ['', '/// Why a call is refused: a number of documents 01 and 02, and its words.', '#[repr(u32)]', '#[non_exhaustive]']
        yield from [DERIVED.replace(')]', ', Hash)]'), 'pub enum Refusal {']
        for n, (name, words) in self.i.refusals.items():
            yield from [f'    /// {words[0].upper()}{words[1:]}.', f'    {self.variants[name]} = {n},']
        yield from ['}', '', 'impl Refusal {', '    /// Every refusal, ascending by number.']
        yield from [f'    pub const ALL: [Refusal; {len(self.variants)}] = [', *(f'        Refusal::{v},' for v in self.variants.values()), '    ];', '']
        yield from ['    /// The words of documents 01 and 02.', "    pub const fn words(self) -> &'static str {", '        match self {']
        for name, words in self.i.refusals.values():
            yield from self.arm(f'            Refusal::{self.variants[name]} =>', f'"{words}"')
        yield from ['        }', '    }', '}']

    def arm(self, pattern, value):
        line = f'{pattern} {value},'
        return [line] if len(line) <= WIDTH else [f'{pattern} {{', f'                {value}', '            }']

    def struct(self, struct):
        yield from ['', *self.comment(struct.doc), '#[repr(C)]', DERIVED, f'pub struct {struct.name} {{']
        for field in struct.fields:
            yield from [*(self.comment(field.doc, '    /// ') if field.doc else ()), f'    pub {field.name}: {field.type},']
        yield '}'

    def layouts(self):
        yield from ['', "// Where a layout is not the library's, this does not compile.", 'const _: () = {']
        for s in self.i.structs:
            yield f'    assert!(size_of::<{s.name}>() == {self.i.layout(s.name)[0]});'
            yield from (f'    assert!(offset_of!({s.name}, {f.name}) == {at});' for f, at in zip(s.fields, self.i.places(s.fields)))
        yield '};'

    def raw(self):
        kinds = [kind for call in self.i.calls for kind in (call.result, *(p.type for p in call.params))]
        names = {kind for kind in kinds if kind in self.i.named}, {array(kind)[2] for kind in kinds if array(kind)}
        yield from ['', '/// The functions of the archive. A slice is two arguments, pointer and length.', 'mod raw {']
        yield from [f'    use super::{{{", ".join(name for some in names for name in sorted(some))}}};', '', '    unsafe extern "C" {']
        for call in self.i.calls:
            params = [part for p in call.params for part in self.parameter(p)]
            yield from called('        ', f'pub {"" if params else "safe "}fn pingvratha_{call.name}', params, f' -> {call.result};')
            yield from [''] if call is not self.i.calls[-1] else ['    }', '}']

    def parameter(self, p):
        if p.type in SLICES:
            return [f'{p.name}: *{"mut" if "mut" in p.type else "const"} u8', f'{p.name}_length: usize']
        return [f'{p.name}: {p.type}']

    def argument(self, p):
        if p.type in SLICES:
            return [f'{p.name}.as_{"mut_" * ("mut" in p.type)}ptr()', f'{p.name}.len()']
        return ['*' * (p.type == 'State') + p.name]

    def wrapper(self, call):
        yield from ['', *self.comment(call.full_doc())]
        if not call.params:
            yield from ['#[inline]', f'pub fn {call.name}() -> {call.result} {{', f'    raw::pingvratha_{call.name}()', '}']
            return
        yield from SAFETY.split('\n')
        params = [f'{p.name}: {"&" * (p.type == "State")}{p.type}' for p in call.params]
        yield '#[inline]'
        yield from called('', f'pub unsafe fn {call.name}', params, f' -> {call.result} {{')
        first, *rest = called('        ', f'raw::pingvratha_{call.name}', [part for p in call.params for part in self.argument(p)], '', 60)
        one = f'    unsafe {{ {first.strip()} }}'
        yield from [one, '}'] if not rest and len(one) <= WIDTH else ['    unsafe {', first, *rest, '    }', '}']
