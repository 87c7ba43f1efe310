# The header: structs and calls as they are, then the same calls on a node, which keep the state by themselves.
import re

from interface.source import LENT, SLICES, WIDTH, Field, array, wrapped

TYPES = {'bool': 'bool', 'u8': 'uint8_t', 'u16': 'uint16_t', 'u32': 'uint32_t', 'u64': 'uint64_t', 'i32': 'int32_t', 'i64': 'int64_t', 'usize': 'size_t'}
ABOUT = [
    'Most hosts need the calls on a node alone, pingvratha_node_begin and so on, at the end. Link libpingvratha.a.',
    '',
    'Written by tools/bindings from the Rattle source.',
]
OPENING = """#ifndef PINGVRATHA_H
#define PINGVRATHA_H

#if !defined(__x86_64__) || !defined(__linux__)
#error "pingvratha: the library is built for x86-64 Linux"
#endif

#include <stdbool.h>
#include <stddef.h>
#include <stdint.h>

#ifdef __cplusplus
extern "C" {
#endif

/* An answer that is not looked at is warned of. */
#ifdef __GNUC__
#define PINGVRATHA_ANSWER __attribute__((warn_unused_result))
#else
#define PINGVRATHA_ANSWER
#endif
"""
NODES = """
/* ---- A node: the same calls, which keep the state by themselves; what is lent has the right size
 * by its type. A node starts with pingvratha_node_blank or as zeros, and nothing but these calls
 * writes to it. They answer what the plain calls answer, without the state. A datagram or a snapshot
 * that is read stands neither in the node nor in the room. */
"""
ZEROS = """
/* A node of zeros counts as blank: every state of the library has an entry, our own. */
static inline bool pingvratha_node_is_zeros(const pingvratha_node *self) {
    return self->state.table.count == 0;
}"""
LAYOUTS = """
/* ---- Where a layout is not the library's, this does not compile. */

#if defined(__cplusplus)
#define PINGVRATHA_SAME(name, is, wanted) static_assert((is) == (wanted), #name)
#elif defined(__STDC_VERSION__) && __STDC_VERSION__ >= 201112L
#define PINGVRATHA_SAME(name, is, wanted) _Static_assert((is) == (wanted), #name)
#else
#define PINGVRATHA_SAME(name, is, wanted) typedef char name[(is) == (wanted) ? 1 : -1]
#endif
"""
CLOSING = """
#undef PINGVRATHA_SAME
#undef PINGVRATHA_ANSWER

#ifdef __cplusplus
}
#endif

#endif"""


def filled(indent, items, end):
    """Items with commas, as many on a line as there is place for."""
    lines = [indent]
    for item in [f'{i}, ' for i in items[:-1]] + [items[-1] + end]:
        if len(lines[-1] + item.rstrip()) > WIDTH:
            lines.append(indent)
        lines[-1] += item
    return [line.rstrip() for line in lines]


def called(head, items, end, indent=''):
    """A list in parentheses, on one line if there is place."""
    line = f'{indent}{head}({", ".join(items)}{end}'
    return [line] if len(line) <= WIDTH else [f'{indent}{head}(', *filled(indent + '    ', items, end)]


class Header:
    def __init__(self, interface):
        self.i = interface
        names = [f.name for f in interface.figures] + [name for name, _ in interface.refusals.values()]
        self.macros = re.compile(rf'\b({"|".join(names)})\b')
        self.calls = re.compile(rf'\b({"|".join(c.name for c in interface.calls if "_" in c.name)})\b')

    def lines(self):
        yield from self.comment([*self.i.about, '', *ABOUT])
        yield from [*OPENING.split('\n'), *self.version(), *self.figures(), *self.numbers(), '', '/* ---- The state. */']
        for struct in self.i.structs:
            yield from self.struct(struct.name.lower(), struct.doc, struct.fields)
            if struct.name == 'State':
                yield from ['', '/* ---- The answers. */']
        yield from ['', '/* ---- Calls that change state. */', *self.plain(True)]
        yield from ['', '/* ---- Calls that show, sum or save. They change nothing, the last reading included. */', *self.plain(False)]
        yield from [*NODES.rstrip().split('\n'), *self.node_types()]
        for call in self.i.calls:
            yield from self.node_call(call)
            yield from ZEROS.split('\n') if call.result == 'State' else ()
        yield from [*LAYOUTS.split('\n'), *self.layouts(), *CLOSING.split('\n')]

    def comment(self, lines, indent=''):
        named = [self.calls.sub(r'pingvratha_\1', self.macros.sub(r'PINGVRATHA_\1', line)) for line in lines]
        first, *rest = wrapped(named, f'{indent} * ', WIDTH - 3)
        out = [f'{indent}/* {first[len(indent) + 3 :]}', *rest]
        return [*out[:-1], out[-1] + ' */']

    def beside(self, line, words, above):
        """The words behind the line, or this comment above it where they have no place."""
        both = f'{line} /* {words} */'
        return [both] if len(both) <= WIDTH else [*self.comment(above, '    '), line]

    def version(self):
        yield f'#define PINGVRATHA_VERSION "{self.i.version}"'
        yield from (f'#define PINGVRATHA_VERSION_{part} {n}' for part, n in zip(('MAJOR', 'MINOR', 'PATCH'), self.i.version.split('.')))

    def figures(self):
        yield from ['', '/* ---- The figures of documents 01 and 02. */']
        for f in self.i.figures:
            yield from ['', *self.comment(f.doc), f'#define PINGVRATHA_{f.name} ' + (f'UINT64_C({f.value})' if f.type == 'u64' else str(f.value))]

    def numbers(self):
        rows = [(0, 'ACCEPTED', 'accepted'), *((n, *row) for n, row in self.i.refusals.items())]
        yield from ['', '/* ---- The number of an answer, in the words of documents 01 and 02. */', '', 'typedef enum pingvratha_number {']
        for n, name, words in rows:
            yield from self.beside(f'    PINGVRATHA_{name} = {n}{"," * (n < rows[-1][0])}', words, [f'{words[0].upper()}{words[1:]}.'])
        yield from ['} pingvratha_number;', '', '/* These words. */', 'static inline const char *pingvratha_words(uint32_t number) {', '    switch (number) {']
        yield from (line for _, name, words in rows for line in (f'    case PINGVRATHA_{name}:', f'        return "{words}";'))
        yield from ['    default:', '        return "no such number";', '    }', '}']

    # structs and calls as they are

    def type(self, kind):
        return TYPES[kind] if kind in TYPES else 'pingvratha_' + kind.lower()

    def declared(self, field):
        if match := array(field.type):
            length = match[2] if match[2].isdigit() else 'PINGVRATHA_' + match[2]
            return f'{"const " * field.type.startswith("&")}{self.type(match[1])} {field.name}[{length}]'
        return f'{self.type(field.type)} {field.name}'

    def parameters(self, params):
        for p in params:
            if p.type in SLICES:
                yield from (f'{"const " * (p.type == "&[u8]")}uint8_t *{p.name}', f'size_t {p.name}_length')
            else:
                yield self.declared(p)

    def struct(self, name, doc, fields):
        yield from ['', *self.comment(doc), f'typedef struct pingvratha_{name} {{']
        for field in fields:
            line, words = f'    {self.declared(field)};', ' '.join(field.doc).removesuffix('.')
            words = words if words[1:2] == ' ' else words[:1].lower() + words[1:]
            yield from self.beside(line, words, field.doc) if words else [line]
        yield f'}} pingvratha_{name};'

    def plain(self, changes):
        for call in self.i.calls:
            if call.changes == changes:
                yield from ['', *self.comment(call.full_doc())]
                yield from called(f'PINGVRATHA_ANSWER {self.type(call.result)} pingvratha_{call.name}', list(self.parameters(call.params)) or ['void'], ');')

    def layouts(self):
        yield 'PINGVRATHA_SAME(pingvratha_same_size, sizeof(size_t), 8);'
        for struct in self.i.structs:
            name = struct.name.lower()
            yield f'PINGVRATHA_SAME(pingvratha_same_{name}, sizeof(pingvratha_{name}), {self.i.layout(struct.name)[0]});'
            for field, at in zip(struct.fields, self.i.places(struct.fields)):
                yield f'PINGVRATHA_SAME(pingvratha_same_{name}_{field.name}, offsetof(pingvratha_{name}, {field.name}), {at});'

    # calls on a node

    def node_types(self):
        yield from self.struct('node', ['State and table memory of one node.'], [Field([], 'state', 'State'), Field([], 'memory', f'[u8; {LENT["memory"]}]')])
        for p in {p.name: p for call in self.i.calls for p in call.params if array(p.type)}.values():
            doc = f'The {p.name} of a call, one for each endpoint.'
            yield from self.struct(p.name, [doc], [Field([], 'numbers', p.type.removeprefix('&'))])
        for name in dict.fromkeys(p.name for call in self.i.calls for p in call.lent()):
            users = [c.name for c in self.i.calls if name in (p.name for p in c.lent())]
            doc = f'What {" and ".join(users)} of a node write{"s" * (len(users) == 1)} to.'
            yield from self.struct(name, [doc], [Field([], 'bytes', f'[u8; {LENT[name]}]')])
        for call in self.i.calls:
            result = self.node_result(call)
            if result.startswith('pingvratha_node_'):
                doc = [f'What {call.name} of a node answers.']
                yield from self.struct(result.removeprefix('pingvratha_'), doc, self.i.named[call.result].besides_state())

    def node_result(self, call):
        """The answer without the state: one field by itself, or a struct of its own."""
        if call.result == 'State':
            return 'void'
        struct = self.i.named.get(call.result)
        if not struct or struct.besides_state() == struct.fields:
            return self.type(call.result)
        first, *others = struct.besides_state()
        return f'pingvratha_node_{struct.name.lower()}' if others else self.type(first.type)

    def node_parameters(self, call):
        yield f'{"" if call.changes else "const "}pingvratha_node *self'
        for p in call.params:
            if p in call.lent():
                yield f'pingvratha_{p.name} *{p.name}'
            elif array(p.type):
                yield f'pingvratha_{p.name} {p.name}'
            elif p.type != 'State' and p.name != 'memory':
                yield from self.parameters([p])

    def arguments(self, call):
        for p in call.params:
            if p.type == 'State':
                yield 'self->state' if call.changes else 'pingvratha_node_is_zeros(self) ? pingvratha_blank() : self->state'
            elif p.name == 'memory':
                yield from ('self->memory', 'sizeof self->memory')
            elif p in call.lent():
                yield from (f'{p.name}->bytes', f'sizeof {p.name}->bytes')
            elif array(p.type):
                yield f'{p.name}.numbers'
            else:
                yield from (p.name, f'{p.name}_length') if p.type in SLICES else (p.name,)

    def node_call(self, call):
        result, arguments = self.node_result(call), list(self.arguments(call))
        doc = f'As pingvratha_{call.name}{", and keeps the state" * call.changes}.'
        yield from ['', *self.comment([doc])]
        answer = '' if result == 'void' else 'PINGVRATHA_ANSWER '
        yield from called(f'{answer}static inline {result} pingvratha_node_{call.name}', list(self.node_parameters(call)), ') {')
        plain = f'pingvratha_{call.name}'
        if not call.changes:
            yield from called(f'return {plain}', arguments, ');', '    ')
        elif result == 'void':
            # A local of its own, so that compilers use its place again.
            yield from [*called(f'pingvratha_state state = {plain}', arguments, ');', '    '), '    self->state = state;']
        else:
            yield from ['    if (pingvratha_node_is_zeros(self))', '        pingvratha_node_blank(self);']
            yield from called(f'{self.type(call.result)} answer = {plain}', arguments, ');', '    ')
            yield from ['    self->state = answer.state;', *self.rest(result, self.i.named[call.result].besides_state())]
        yield '}'

    def rest(self, result, fields):
        if len(fields) == 1:
            return [f'    return answer.{fields[0].name};']
        return [f'    {result} rest;', *(f'    rest.{f.name} = answer.{f.name};' for f in fields), '    return rest;']
