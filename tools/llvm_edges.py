#!/usr/bin/env python3
"""Turns textual LLVM IR into an edge file for graspan.

  clang -S -emit-llvm -O0 -g -c FILE.c -o FILE.ll
  llvm_edges.py [--for alias|null|dataflow] [--fields one|named] FILE.ll.. > program.edges

The files are taken as one program: what isn't internal to a file is linked by its name. A vertex is the value of a
register, a parameter, a result, or the address of a variable or function; for each pointer that is read or written
through there is a vertex for what it points to. The labels:

  a   from a value to what takes it: copies, loads, stores, casts, address arithmetic, arguments, results
  d   from a pointer to what it points to (not for dataflow)
  n   from a NULL to what takes it (not for alias)

'-a', '-d' and '-n' are their inverses (not for dataflow). The comment '# K NAME' gives vertex K its name.

It is no sound analysis of C: the fields and elements of a value aren't told apart (address arithmetic is a copy),
numbers that are pointers aren't followed, and calls through pointers and to functions without a body are left out.
With '--fields named' a field of a struct is one variable for all values of that struct, so two fields are told apart
and two values aren't: the graph of a large program then has a much smaller closure. What is left out is counted and
printed on standard error at the end. Works for typed and for opaque pointers.
"""
import argparse
import os
import sys
from collections import Counter

from llvm_text import (Module, NotUnderstood, Reader, carries_pointers, globals_in, shown, split_list, split_type,
                       value_of)

MOST_VERTICES = 16777216
ALLOCATES = {'malloc', 'calloc', 'realloc', 'reallocarray', 'strdup', 'strndup', 'aligned_alloc', 'memalign',
             'valloc', 'pvalloc', 'reallocf', 'wcsdup'}
RETURNS_FIRST = {'realloc', 'reallocarray', 'reallocf', 'strcpy', 'strncpy', 'strcat', 'strncat', 'strchr', 'strrchr',
                 'strstr', 'strpbrk', 'memcpy', 'memmove', 'memset', 'memchr', 'memrchr', 'index', 'rindex'}
COPIES_WORDS = {'memcpy', 'memmove', 'llvm.memcpy', 'llvm.memmove'}
COPIES = {'bitcast', 'addrspacecast', 'freeze'}
SHORT = 60


class Graph:
    """Vertices with their names, and edges in the order in which they are made."""

    def __init__(self, kind):
        self.kind = kind
        self.numbers, self.texts, self.places, self.edges = {}, [], [], []

    def vertex(self, key, text=None, place=''):
        """The vertex of a key, which is made at its first need."""
        if key not in self.numbers:
            if len(self.texts) == MOST_VERTICES:
                raise NotUnderstood('there would be more than %d vertices' % MOST_VERTICES)
            self.numbers[key] = len(self.texts)
            self.texts.append((text or str(key[-1]))[:SHORT])
            self.places.append(place)
        return self.numbers[key]

    def edge(self, source, destination, label):
        self.edges.append((source, destination, label))
        if self.kind != 'dataflow':
            self.edges.append((destination, source, '-' + label))

    def flows(self, source, destination):
        if source is not None and destination is not None and source != destination:
            self.edge(source, destination, 'a')

    def pointee(self, pointer, place=''):
        """What a pointer points to."""
        key = ('*', pointer)
        if key not in self.numbers:
            made = self.vertex(key, pointee_text(self.texts[pointer]), place)
            if self.kind != 'dataflow':
                self.edge(pointer, made, 'd')
        return self.numbers[key]

    def null(self, destination, place):
        """A NULL of its own flows to a vertex."""
        if self.kind != 'alias' and destination is not None:
            self.edge(self.vertex(('NULL', len(self.texts)), 'NULL', place), destination, 'n')

    def write(self, out, head):
        out.writelines('# %s\n' % line for line in head)
        for number, (text, place) in enumerate(zip(self.texts, self.places)):
            name = ' '.join((text + ' ' + place).split())
            out.write('# %d %s\n' % (number, shown(name, len(name))))
        out.writelines('%d %d %s\n' % edge for edge in dict.fromkeys(self.edges))


def pointee_text(text):
    return text[1:] if text.startswith('&') else '*' + text


class Program:
    """The modules of a program, linked by name."""

    def __init__(self, modules, kind, fields='one'):
        self.graph, self.left_out, self.modules = Graph(kind), Counter(), modules
        self.has_named_fields = fields == 'named'
        self.bodies = {}
        for module in modules:
            for function in module.functions:
                self.bodies.setdefault(module.key(function.name), function)

    def run(self):
        for module in self.modules:
            for name, initial, place in module.variables:
                self.initial(module, name, initial, place)
            for function in module.functions:
                Body(self, module, function).run()

    def address(self, module, name):
        """The address of a global variable or function."""
        is_function = module.is_function(name)
        return self.graph.vertex(module.key(name), ('' if is_function else '&') + name[1:], module.place_of(name))

    def initial(self, module, name, initial, place):
        """What a global variable holds at the start."""
        names = globals_in(initial)
        if not names and initial != 'null':
            return
        held = self.graph.pointee(self.address(module, name), place)
        for source in names:
            self.graph.flows(self.address(module, source), held)
        if initial == 'null':
            self.graph.null(held, place)

    def parameter(self, key, function, name):
        place = 'in %s (%s:%d)' % (function.name[1:], function.file, function.line)
        return self.graph.vertex(('%', key, name), 'parameter ' + name[1:], place)

    def result(self, key, name):
        return self.graph.vertex(('return', key), 'return ' + name[1:])


class Body:
    """The instructions of one function."""

    def __init__(self, program, module, function):
        self.program, self.module, self.function = program, module, function
        self.graph, self.left_out = program.graph, program.left_out
        self.key = module.key(function.name)
        self.line = 0

    def place(self, number=None):
        """Where something stands in the source: the function, and the line where it is known."""
        number = self.module.line(self.text) if number is None else number
        where = self.function.file + (':%d' % number if number else '')
        return 'in %s (%s)' % (self.function.name[1:], where)

    def run(self):
        self.text = ''
        for name, pointer in self.module.declared(self.function):
            register = self.graph.vertex(self.register_key(name), '&' + pointer.name, self.place(pointer.line))
            self.graph.pointee(register, self.place(pointer.line))
        for name in self.function.parameters:
            self.program.parameter(self.key, self.function, name)
        for self.line, self.text, instruction in self.function.body:
            try:
                self.step(*instruction)
            except (IndexError, TypeError, ValueError):
                raise NotUnderstood('%s:%d: this is no instruction: %s' % (
                    self.module.path, self.line, shown(self.text))) from None

    def register_key(self, name):
        return ('%', self.key, name)

    def step(self, result, word, rest):
        method = getattr(self, 'step_' + word, None)
        if method is not None:
            method(result, rest)
        elif word in COPIES:
            self.copy(result, [rest.rsplit(' to ', 1)[0]])
        elif word in ('inttoptr', 'va_arg', 'landingpad'):
            self.left_out['pointers that %s makes' % word] += 1

    def register(self, name, text=None):
        if name is None:
            return None
        return self.graph.vertex(self.register_key(name), text or name, self.place())

    def value(self, operand):
        """The vertex of an operand, and whether it is NULL. Numbers and what isn't known have none."""
        kind, name = value_of(operand)
        if kind == '%':
            return self.register(name), False
        if kind == '@':
            return self.program.address(self.module, name), False
        return None, kind == 'null'

    def take(self, operand, destination):
        """An operand's value flows to a vertex."""
        if not carries_pointers(split_type(operand)[0]):
            return
        for name in globals_in(operand) if value_of(operand)[0] == 'many' else ():
            self.graph.flows(self.program.address(self.module, name), destination)
        source, is_null = self.value(operand)
        self.graph.flows(source, destination)
        if is_null:
            self.graph.null(destination, self.place())

    def text_of(self, operand):
        vertex, _ = self.value(operand)
        return None if vertex is None else self.graph.texts[vertex]

    def copy(self, result, operands, text=None):
        """The result takes the values of operands."""
        if any(carries_pointers(split_type(operand)[0]) for operand in operands):
            destination = self.register(result, text or self.text_of(operands[0]))
            for operand in operands:
                self.take(operand, destination)

    def memory(self, operand):
        """What an operand points to."""
        pointer, is_null = self.value(operand)
        if pointer is None:
            self.left_out['reads and writes through NULL or a number'] += 1
            return None
        return self.graph.pointee(pointer, self.place())

    def step_alloca(self, result, rest):
        self.register(result, '&' + result[1:])

    def step_load(self, result, rest):
        parts = split_list(rest)
        loaded = parts[0].replace('volatile ', '').replace('atomic ', '')
        source = self.memory(parts[1])
        if source is not None and carries_pointers(loaded):
            self.graph.flows(source, self.register(result, self.graph.texts[source]))

    def step_store(self, result, rest):
        parts = split_list(rest.replace('volatile ', '').replace('atomic ', ''))
        destination = self.memory(parts[1])
        if destination is not None:
            self.take(parts[0], destination)

    def step_getelementptr(self, result, rest):
        parts = split_list(rest)
        base = self.text_of(parts[1]) or '?'
        fields = self.module.fields(parts[0].split()[-1]) if len(parts) > 3 else []
        last = parts[3].split()[-1] if len(parts) > 3 else ''
        if self.program.has_named_fields and last.isdigit() and parts[0].split()[-1][:1] == '%':
            self.named_field(result, parts[0].split()[-1], int(last), fields)
            return
        if last.isdigit() and int(last) < len(fields):
            link = base + '.' if base.startswith('&') else '&%s->' % base
            text = link + fields[int(last)]
        else:
            text = ('' if base.startswith('&') else '&') + base + ('' if base.endswith('[..]') else '[..]')
        self.copy(result, [parts[1]], text)

    def named_field(self, result, held, number, fields):
        """The address of a field, which is the same for all values of the struct."""
        name = fields[number] if number < len(fields) else str(number)
        text = '&%s.%s' % (held.strip('%"').split('.', 1)[-1], name)
        self.graph.flows(self.graph.vertex(('field', text), text), self.register(result, text))

    def step_phi(self, result, rest):
        held, values = split_type(rest)
        pairs = [pair.strip() for pair in split_list(values)]
        operands = [held + ' ' + split_list(pair[1:-1])[0] for pair in pairs if pair[:1] == '[']
        self.copy(result, operands, result)

    def step_select(self, result, rest):
        self.copy(result, split_list(rest)[1:3], result)

    def step_extractvalue(self, result, rest):
        self.copy(result, split_list(rest)[:1])

    step_extractelement = step_extractvalue

    def step_insertvalue(self, result, rest):
        self.copy(result, split_list(rest)[:2], result)

    step_insertelement = step_insertvalue
    step_shufflevector = step_insertvalue

    def step_atomicrmw(self, result, rest):
        parts = split_list(rest)
        memory = self.memory(' '.join(parts[0].split()[1:]) if parts[0].split()[0] != 'volatile' else parts[0])
        if memory is not None and carries_pointers(split_type(parts[1])[0]):
            self.graph.flows(memory, self.register(result, self.graph.texts[memory]))
            self.take(parts[1], memory)

    def step_cmpxchg(self, result, rest):
        parts = split_list(rest.replace('weak ', '').replace('volatile ', ''))
        memory = self.memory(parts[0])
        if memory is not None and carries_pointers(split_type(parts[2])[0]):
            self.take(parts[2], memory)
            self.graph.flows(memory, self.register(result, self.graph.texts[memory]))

    def step_ret(self, result, rest):
        if rest.strip() != 'void' and carries_pointers(split_type(rest)[0]):
            self.take(rest, self.program.result(self.key, self.function.name))

    def step_call(self, result, rest):
        callee, arguments, returned = Reader.call(rest)
        if callee is None:
            self.left_out['calls of inline assembly' if ' asm ' in ' ' + rest else 'calls through pointers'] += 1
            return
        key = self.module.key(callee)
        if key in self.program.bodies:
            self.link(result, key, callee, arguments, returned)
        else:
            self.outside(result, callee[1:], arguments, returned)

    step_invoke = step_call

    def link(self, result, key, callee, arguments, returned):
        """A call of a function with a body."""
        body = self.program.bodies[key]
        for operand, name in zip(arguments, body.parameters):
            self.take(operand, self.program.parameter(key, body, name))
        if len(arguments) > len(body.parameters):
            self.left_out['arguments without a parameter'] += 1
        if result is not None and carries_pointers(returned):
            self.graph.flows(self.program.result(key, callee), self.register(result, callee[1:] + '()'))

    def outside(self, result, name, arguments, returned):
        """A call of a function without a body: a few of the C library are known."""
        known = '.'.join(name.split('.')[:2])
        if known in COPIES_WORDS and len(arguments) > 1:
            destination, source = self.memory(arguments[0]), self.memory(arguments[1])
            self.graph.flows(source, destination)
        is_known = name in ALLOCATES or name in RETURNS_FIRST or name.startswith('llvm.')
        if name in ALLOCATES and result is not None:
            site = self.graph.vertex(('site', self.key, result), name, self.place())
            self.graph.flows(site, self.register(result, name + '()'))
        if name in RETURNS_FIRST and result is not None and arguments:
            self.take(arguments[0], self.register(result, name + '()'))
        if not is_known and (carries_pointers(returned) or any(carries_pointers(split_type(a)[0]) for a in arguments)):
            self.left_out['calls of functions without a body that take or give pointers'] += 1
            if result is not None and carries_pointers(returned):
                self.register(result, name + '()')


def head(given, program):
    graph = program.graph
    fields = 'the fields of a value are one' if given.fields == 'one' else 'a field is one for all values of its struct'
    return ['llvm_edges.py: %d files of LLVM IR, for the %s grammar; %d vertices, %d edges' % (
        len(given.paths), given.kind, len(graph.texts), len(dict.fromkeys(graph.edges))),
        'It is no sound analysis of C: %s, elements are one, and some calls are left out.' % fields]


def report(program):
    for what, count in sorted(program.left_out.items()):
        print('llvm_edges.py: left out: %d %s' % (count, what), file=sys.stderr)


def main(words):
    parser = argparse.ArgumentParser(description=__doc__, formatter_class=argparse.RawDescriptionHelpFormatter)
    parser.add_argument('--for', dest='kind', choices=['alias', 'null', 'dataflow'], default='alias')
    parser.add_argument('--fields', choices=['one', 'named'], default='one')
    parser.add_argument('paths', nargs='+', metavar='FILE.ll')
    given = parser.parse_args(words)
    sys.stdout.reconfigure(encoding='utf-8')
    try:
        modules = [Module(path) for path in given.paths]
        if not any(module.functions for module in modules):
            raise NotUnderstood('%s:%d: the file ends, and it has no function' % (modules[0].path, modules[0].length))
        program = Program(modules, given.kind, given.fields)
        program.run()
        program.graph.write(sys.stdout, head(given, program))
        sys.stdout.flush()
    except BrokenPipeError:
        os.dup2(os.open(os.devnull, os.O_WRONLY), sys.stdout.fileno())
    except OSError as fault:
        sys.exit('llvm_edges.py: %s: %s' % (fault.filename, fault.strerror))
    except NotUnderstood as fault:
        sys.exit('llvm_edges.py: %s' % fault)
    report(program)


if __name__ == '__main__':
    main(sys.argv[1:])
