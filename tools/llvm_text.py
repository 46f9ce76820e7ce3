"""Reads the text of LLVM IR as far as llvm_edges.py needs it: functions, instructions, operands, debug information."""
import os
import re
from collections import namedtuple

WORD = r'(?:"[^"]*"|[-a-zA-Z$._0-9]+)'
NAME = '[@%]' + WORD
TOP_LEVEL = re.compile(r'(;|source_filename|target |@|%|define |declare |attributes |!|\$|module |\^|uselistorder|\})')
DEFINE = re.compile(r'define .*?(@%s)\(' % WORD)
VARIABLE = re.compile(r'(@%s) = ([^"]*?)\b(global|constant|alias|ifunc) (.*)$' % WORD)
INSTRUCTION = re.compile(r'\s+(?:(%%%s) = )?(?:(?:tail|musttail|notail) )?([a-z_]+)\b ?(.*)$' % WORD)
LABEL = re.compile(WORD + ':')
ATTACHED = re.compile(r'(, ![a-zA-Z_.]+ ![0-9]+)+$')
AT_LINE = re.compile(r'!dbg !([0-9]+)')
DECLARE = re.compile(r'(?:@llvm\.dbg\.declare\(metadata|#dbg_declare\()\s*'
                     r'(?:ptr|[^,]*\*) (%%%s), (?:metadata )?!([0-9]+)' % WORD)
SKIPPED = re.compile(r'(?:(?:[a-z_]+cc|cc [0-9]+|fast|nnan|ninf|nsz|arcp|contract|afn|reassoc|noundef|nonnull|noalias|'
                     r'signext|zeroext|inreg|range\([^)]*\))\s+)*')
NUMBERS = re.compile(r'i[0-9]+|half|bfloat|float|double|x86_fp80|fp128|ppc_fp128|void')
OPEN, CLOSE = '([{<', ')]}>'

Function = namedtuple('Function', 'name parameters body file line')
Declared = namedtuple('Declared', 'name line')


class NotUnderstood(Exception):
    """The text isn't LLVM IR, or not whole; the message has the file and the line."""


def shown(text, most=60):
    """The front of a text, without what steers a terminal."""
    return ''.join(c if c.isprintable() else '?' for c in text.strip()[:most])


def group_end(text, at):
    """The place behind the group of brackets that begins at a place."""
    depth, quoted = 0, False
    for place in range(at, len(text)):
        c = text[place]
        if c == '"':
            quoted = not quoted
        elif not quoted and c in OPEN:
            depth += 1
        elif not quoted and c in CLOSE:
            depth -= 1
            if depth == 0:
                return place + 1
    raise ValueError('a bracket without an end')


def split_list(text):
    """The parts between commas that stand in no bracket and in no quotes."""
    parts, depth, start, quoted = [], 0, 0, False
    for place, c in enumerate(text):
        if c == '"':
            quoted = not quoted
        elif quoted:
            continue
        elif c in OPEN:
            depth += 1
        elif c in CLOSE:
            depth -= 1
        elif c == ',' and depth == 0:
            parts.append(text[start:place].strip())
            start = place + 1
    last = text[start:].strip()
    return parts + [last] if last or parts else []


def split_type(text):
    """The type that a text begins with, and what stands behind it."""
    text = text.strip()
    if text[:1] and text[0] in '{[<':
        at = group_end(text, 0)
    else:
        found = re.match('%%%s|[a-z_0-9A-Z.]+' % WORD, text)
        at = found.end() if found else 0
    while True:
        suffix = re.match(r'\*|\s*addrspace\([0-9]+\)', text[at:])
        if suffix:
            at += suffix.end()
            continue
        arguments = re.match(r'\s*\(', text[at:])
        if arguments and at:
            end = group_end(text, at + arguments.end() - 1)
            if text[end:end + 1] == '*':
                at = end
                continue
        return text[:at], text[at:]


def carries_pointers(held):
    """Whether a value of this type may hold a pointer."""
    held = held.strip()
    if held.endswith('*') or held.startswith('ptr'):
        return True
    if held[:1] in ('[', '<'):
        return '*' in held or 'ptr' in held or '%' in held
    return bool(held) and not NUMBERS.fullmatch(held) and held not in ('label', 'metadata', 'token')


def globals_in(text):
    return re.findall('@' + WORD, text)


def value_of(operand):
    """The kind of an operand's value, and its name: '%' a register, '@' a global, 'null', 'many' or 'other'."""
    operand = operand.strip()
    last = re.search(r'(?:^|\s)(' + NAME + r')$', operand)
    if last:
        return last.group(1)[0], last.group(1)
    if operand.endswith(' null') or operand == 'null':
        return 'null', None
    names = globals_in(operand)
    if operand.endswith(')') and len(names) >= 1:
        return '@', names[0]
    return ('many', None) if names else ('other', None)


class Reader:
    """Parts of instructions."""

    @staticmethod
    def call(rest):
        """The function that is called by its name, its arguments, and the type of its result."""
        place, callee = 0, None
        while place < len(rest):
            name = re.compile(NAME).match(rest, place)
            if name and rest[name.end():name.end() + 1] == '(':
                callee, place = name.group(0) if name.group(0)[0] == '@' else None, name.end()
                break
            if name:
                place = name.end()
            elif rest[place] in '([{<':
                end = group_end(rest, place)
                if rest[place] == '(' and rest[end:end + 1] == '(':
                    callee, place = (globals_in(rest[place:end]) or [None])[0], end
                    break
                place = end
            elif rest[place] == '"':
                place = rest.index('"', place + 1) + 1
            else:
                place += 1
        if callee is None:
            return None, [], ''
        before = rest[:rest.index(callee)].strip()
        arguments = split_list(rest[place + 1:group_end(rest, place) - 1])
        return callee, arguments, Reader.returned(before)

    @staticmethod
    def returned(before):
        """The type of a call's result, from the text before the function's name."""
        words = re.sub(r'\b(bitcast|addrspacecast)\s*\(', ' ', before)
        words = re.sub(r'\b(align|dereferenceable|dereferenceable_or_null)\s*\(?[0-9]+\)?', ' ', words).strip()
        skipped = SKIPPED.match(words)
        return split_type(words[skipped.end():])[0]


class Module:
    """One file of LLVM IR."""

    def __init__(self, path):
        self.path, self.functions, self.variables = path, [], []
        self.own, self.structs, self.metadata, self.declares, self.declared_in = set(), {}, {}, set(), {}
        self.fields_of = None
        with open(path, encoding='utf-8', errors='surrogateescape') as file:
            lines = file.read().split('\n')
        self.metadata = self.read_metadata(lines)
        at = 0
        while at < len(lines):
            try:
                at = self.top_level(lines, at)
            except (IndexError, ValueError):
                raise self.no_ir(lines, at) from None
        self.length = len(lines)

    @staticmethod
    def read_metadata(lines):
        found = (re.match(r'!([0-9]+) = (?:distinct )?(.*)', line) for line in lines if line[:1] == '!')
        return {int(match.group(1)): match.group(2) for match in found if match}

    def top_level(self, lines, at):
        line = lines[at]
        if line.startswith('define '):
            return self.function(lines, at)
        if line.strip() and not TOP_LEVEL.match(line):
            raise self.no_ir(lines, at)
        if line.startswith('declare '):
            self.declares.update(globals_in(line)[:1])
        elif line.startswith('@'):
            self.variable(line)
        return at + 1

    def no_ir(self, lines, at):
        return NotUnderstood('%s:%d: this is no LLVM IR: %s' % (self.path, at + 1, shown(lines[at])))

    def variable(self, line):
        found = VARIABLE.match(line)
        if not found:
            return
        name, linkage, _, rest = found.groups()
        if re.search(r'\b(private|internal)\b', linkage):
            self.own.add(name)
        held, initial = split_type(rest)
        parts = split_list(initial)
        place = AT_LINE.search(line)
        where = self.variable_place(int(place.group(1))) if place else ''
        self.variables.append((name, parts[0] if parts else '', where))

    def function(self, lines, at):
        found = DEFINE.match(lines[at])
        if not found:
            raise NotUnderstood('%s:%d: this is no function: %s' % (self.path, at + 1, shown(lines[at])))
        name, first = found.group(1), lines[at]
        if re.search(r'^define .*?\b(internal|private)\b', first[:found.end()]):
            self.own.add(name)
        parameters = split_list(first[found.end():group_end(first, found.end() - 1) - 1])
        names = []
        for number, parameter in enumerate(p for p in parameters if p != '...'):
            last = re.search('(%%%s)$' % WORD, parameter)
            names.append(last.group(1) if last and ' ' in parameter else '%%%d' % number)
        start, body = at, []
        while True:
            at += 1
            if at >= len(lines) or (at == len(lines) - 1 and not lines[at].startswith('}')):
                raise NotUnderstood('%s:%d: the file ends within the function %s' % (self.path, at, name[1:]))
            if lines[at].startswith('}'):
                break
            at = self.instruction(lines, at, name, body)
        subprogram = AT_LINE.search(first)
        file, line = os.path.basename(self.path), start + 1
        if subprogram:
            file, line = self.subprogram(int(subprogram.group(1)))
        self.functions.append(Function(name, names, body, file, line))
        return at + 1

    def instruction(self, lines, at, function, body):
        """Takes an instruction and the lines on which it goes on; answers the last one's number."""
        text = lines[at]
        declared = DECLARE.search(text)
        if declared:
            self.declared_in.setdefault(function, []).append((declared.group(1), int(declared.group(2))))
            return at
        if not text.strip() or text.lstrip()[0] in ';#' or LABEL.match(text):
            return at
        found = INSTRUCTION.match(text)
        if not found:
            raise NotUnderstood('%s:%d: this is no instruction: %s' % (self.path, at + 1, shown(text)))
        if found.group(2) == 'switch' and text.rstrip().endswith('['):
            while at + 1 < len(lines) and lines[at].strip()[:1] != ']':
                at += 1
        result, word, rest = found.groups()
        rest = ATTACHED.sub('', rest)
        body.append((at + 1, text, (result, word, rest)))
        while at + 1 < len(lines) and re.match(r'\s+(to label|cleanup|catch |filter )', lines[at + 1]):
            at += 1
        return at

    def key(self, name):
        """What a global name means in the whole program."""
        return (self.path, name) if name in self.own else ('', name)

    def is_function(self, name):
        return name in self.declares or name in self.function_names()

    def function_names(self):
        if not hasattr(self, 'names'):
            self.names = {function.name for function in self.functions}
        return self.names

    def field(self, number, name):
        """A field of a node of the debug information: a number, a text, or None."""
        found = re.search(r'\b%s: (?:"([^"]*)"|!?([0-9]+))' % name, self.metadata.get(number, ''))
        if not found:
            return None
        return found.group(1) if found.group(1) is not None else int(found.group(2))

    def name_of(self, number):
        """The name that a node has, or None."""
        name = self.field(number, 'name')
        return name if isinstance(name, str) else None

    def line_of(self, number):
        """The line that a node names, or 0."""
        line = self.field(number, 'line')
        return line if isinstance(line, int) else 0

    def line(self, text):
        at = AT_LINE.search(text)
        return self.line_of(int(at.group(1))) if at else 0

    def file_of(self, number):
        file = self.field(number, 'file')
        name = self.field(file, 'filename') if isinstance(file, int) else None
        return os.path.basename(name if isinstance(name, str) and name else self.path)

    def subprogram(self, number):
        return self.file_of(number), self.line_of(number)

    def variable_place(self, number):
        var = self.field(number, 'var')
        var = number if var is None else var
        return '(%s:%d)' % (self.file_of(var), self.line_of(var))

    def place_of(self, name):
        if not hasattr(self, 'places'):
            self.places = {variable: place for variable, _, place in self.variables}
            self.places.update((f.name, '(%s:%d)' % (f.file, f.line)) for f in self.functions)
        return self.places.get(name, '')

    def declared(self, function):
        """The registers that hold addresses of declared variables, with the names and lines of these."""
        for register, number in self.declared_in.get(function.name, []):
            yield register, Declared(self.name_of(number) or register[1:], self.line_of(number))

    def fields(self, held):
        """The names of a struct's fields, where the debug information has them."""
        if self.fields_of is None:
            self.fields_of = dict(self.all_fields())
        found = re.fullmatch(r'%"?(?:struct|union)\.([^"]*?)(?:\.[0-9]+)?"?', held)
        return self.fields_of.get(found.group(1), []) if found else []

    def all_fields(self):
        for number, text in self.metadata.items():
            if not text.startswith('!DICompositeType') or 'DW_TAG_structure_type' not in text:
                continue
            elements = self.field(number, 'elements')
            members = re.findall(r'![0-9]+', self.metadata.get(elements, ''))
            names = [self.name_of(int(member[1:])) or '?' for member in members]
            if names and self.name_of(number):
                yield self.name_of(number), names
