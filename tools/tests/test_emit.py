"""The command emit: random programs of the C subset beside a plain walk of their trees, and bad inputs by hand.

Each program is made as a tree and printed with random blanks and comments. The walk here shares no code with the
program: it goes by the table of docs/FORMATS.md. GRASPAN_SEED names another first program.
"""
import os
import random
import re
import subprocess
import tempfile
import unittest

from program import PROGRAM, needs_program

PROGRAMS = 200
SEED = int(os.environ.get('GRASPAN_SEED', '0'))
FAULT = re.compile(rb'fault input source ([1-9][0-9]*) '
                   rb'(Unexpected|Undeclared|Repeated|WrongArguments|NoValue)\n')
COMPARISONS = ['==', '!=', '<', '>', '<=', '>=']


class Node:
    """A part of a program. `tok` is the number of its first token, which `spell` sets."""

    def __init__(self, kind, **fields):
        self.kind, self.tok = kind, None
        self.__dict__.update(fields)


class Maker:
    """Makes a program at random. Most names are visible where they are used; now and then one isn't."""

    def __init__(self, seed):
        self.random = random.Random(seed)
        self.functions, self.scopes, self.returns = [], [], False

    def program(self):
        pick = self.random
        for i in range(pick.randint(1, 4)):
            name = 'f%d' % (i if pick.random() < 0.98 else 0)
            params = [self.declarator(Node('param', base=self.base()), 'p%d' % j) for j in range(pick.randint(0, 3))]
            self.functions.append(Node('function', base=self.base(), stars=pick.choice([0, 0, 1, 2]), name=name,
                                       params=params, says_void=pick.random() < 0.5, block=[]))
        self.scopes = [[]]
        items = []
        for function in self.functions:
            if pick.random() < 0.6:
                items.append(self.declaration())
            self.scopes.append([param.name for param in function.params])
            self.returns = function.base != 'void' or function.stars > 0
            function.block = self.stmts(3)
            self.scopes.pop()
            items.append(function)
        return items + [self.declaration() for _ in range(pick.randint(0, 1))]

    def base(self):
        return self.random.choice(['int', 'int', 'char', 'void'])

    def declarator(self, node, name):
        node.stars = self.random.choice([0, 1, 1, 2])
        node.name = name if self.random.random() < 0.99 else self.random.choice(['p0', 'v0', 'f0', 'n' * 255])
        return node

    def declaration(self):
        pick, variables = self.random, []
        for _ in range(pick.choice([1, 1, 2, 3])):
            # A name that isn't in this scope yet, but for one time in a hundred; it may hide an outer one.
            free = [n for n in ['v%d' % i for i in range(30)] if n not in self.scopes[-1]]
            var = self.declarator(Node('var', value=None), pick.choice(free[:5]))
            self.scopes[-1].append(var.name)
            if pick.random() < 0.5:
                var.value = self.expr(2)
            variables.append(var)
        return Node('declared', base=self.base(), variables=variables)

    def stmts(self, depth):
        return [self.stmt(depth) for _ in range(self.random.randint(0, 5))]

    def stmt(self, depth):
        pick = self.random
        kind = pick.choice(['declared', 'assign', 'assign', 'assign', 'call', 'block', 'empty', 'if', 'while',
                            'return'])
        if depth == 0 and kind in ('block', 'if', 'while'):
            kind = 'assign'
        if kind == 'declared':
            return self.declaration()
        if kind == 'assign':
            return Node('assign', place=self.place(2), value=self.expr(3))
        if kind == 'call':
            return Node('do', call=self.call(2))
        if kind == 'block':
            self.scopes.append([])
            block = Node('block', stmts=self.stmts(depth - 1))
            self.scopes.pop()
            return block
        if kind == 'empty':
            return Node('empty')
        if kind == 'return':
            has_value = pick.random() < (0.7 if self.returns else 0.05)
            return Node('return', value=self.expr(2) if has_value else None)
        node = Node(kind, condition=self.expr(2), body=self.stmt(depth - 1), other=None)
        if kind == 'if' and pick.random() < 0.5 and not ends_in_open_if(node.body):
            node.other = self.stmt(depth - 1)
        return node

    def name(self):
        visible = [n for scope in self.scopes for n in scope]
        if not visible or self.random.random() < 0.002:
            return Node('name', name=self.random.choice(['v0', 'v1', 'p0', 'zz']))
        return Node('name', name=self.random.choice(visible))

    def place(self, depth):
        if depth == 0 or self.random.random() < 0.6:
            return self.name()
        return Node('star', pointer=self.pointer(depth - 1))

    def pointer(self, depth):
        kind = self.random.choice(['name', 'star', 'call', 'paren']) if depth else 'name'
        if kind == 'name':
            return self.name()
        if kind == 'star':
            return Node('star', pointer=self.pointer(depth - 1))
        if kind == 'call':
            return self.call(depth - 1, wants_value=True)
        return Node('paren', expr=self.expr(depth - 1))

    def call(self, depth, wants_value=False):
        pick = self.random
        able = [f for f in self.functions if not wants_value or f.base != 'void' or f.stars or pick.random() < 0.05]
        if not able or pick.random() < 0.3:
            return Node('malloc', size=self.expr(max(0, depth - 1)))
        function = pick.choice(able)
        count = len(function.params) if pick.random() < 0.99 else pick.randint(0, 3)
        name = function.name if pick.random() < 0.995 else 'zz'
        return Node('call', name=name, args=[self.expr(max(0, depth - 1)) for _ in range(count)])

    def expr(self, depth):
        if self.random.random() < 0.15:
            return Node('compare', op=self.random.choice(COMPARISONS), left=self.sum(depth), right=self.sum(depth))
        return self.sum(depth)

    def sum(self, depth):
        first = self.unary(depth)
        while self.random.random() < 0.15:
            first = Node('add', op=self.random.choice('+-'), left=first, right=self.unary(depth))
        return first

    def unary(self, depth):
        kind = self.random.choice(['place', 'place', 'place', 'address', 'call', 'number', 'null', 'paren'])
        if kind == 'place':
            return self.place(depth)
        if kind == 'address':
            return Node('address', place=self.place(depth))
        if kind == 'call' and depth:
            return self.call(depth - 1, wants_value=True)
        if kind == 'paren' and depth:
            return Node('paren', expr=self.expr(depth - 1))
        return Node('null') if kind == 'null' else Node('number', text=self.random.choice(['0', '1', '42', '007']))


def ends_in_open_if(stmt):
    """Whether an `else` behind this statement would belong to an `if` in it."""
    while stmt.kind in ('if', 'while'):
        if stmt.kind == 'if' and stmt.other is None:
            return True
        stmt = stmt.body if stmt.kind == 'while' else stmt.other
    return False


class Speller:
    """The tokens of a tree."""

    def __init__(self):
        self.tokens = []

    def put(self, *tokens):
        self.tokens += tokens

    def declarator(self, node):
        self.put(*'*' * node.stars)
        node.tok = len(self.tokens)
        self.put(node.name)

    def several(self, nodes, spell):
        for i, node in enumerate(nodes):
            if i:
                self.put(',')
            spell(node)

    def param(self, node):
        self.put(node.base)
        self.declarator(node)

    def var(self, node):
        self.declarator(node)
        if node.value:
            self.put('=')
            self.spell(node.value)

    def spell(self, node):
        if node.kind not in ('function', 'compare', 'add'):
            node.tok = len(self.tokens)
        getattr(self, 'spell_' + node.kind)(node)

    def spell_function(self, node):
        self.put(node.base)
        self.declarator(node)
        self.put('(')
        if node.params or not node.says_void:
            self.several(node.params, self.param)
        else:
            self.put('void')
        self.put(')', '{')
        for stmt in node.block:
            self.spell(stmt)
        self.put('}')

    def spell_declared(self, node):
        self.put(node.base)
        self.several(node.variables, self.var)
        self.put(';')

    def spell_assign(self, node):
        self.spell(node.place)
        self.put('=')
        self.spell(node.value)
        self.put(';')

    def spell_do(self, node):
        self.spell(node.call)
        self.put(';')

    def spell_block(self, node):
        self.put('{')
        for stmt in node.stmts:
            self.spell(stmt)
        self.put('}')

    def spell_empty(self, _):
        self.put(';')

    def spell_if(self, node):
        self.put(node.kind, '(')
        self.spell(node.condition)
        self.put(')')
        self.spell(node.body)
        if node.other:
            self.put('else')
            self.spell(node.other)

    spell_while = spell_if

    def spell_return(self, node):
        self.put('return')
        if node.value:
            self.spell(node.value)
        self.put(';')

    def spell_name(self, node):
        self.put(node.name)

    def spell_star(self, node):
        self.put('*')
        self.spell(node.pointer)

    def spell_call(self, node):
        self.put(node.name, '(')
        self.several(node.args, self.spell)
        self.put(')')

    def spell_malloc(self, node):
        self.put('malloc', '(')
        self.spell(node.size)
        self.put(')')

    def spell_compare(self, node):
        self.spell(node.left)
        node.tok = len(self.tokens)
        self.put(node.op)
        self.spell(node.right)

    spell_add = spell_compare

    def spell_address(self, node):
        self.put('&')
        self.spell(node.place)

    def spell_number(self, node):
        self.put(node.text)

    def spell_null(self, _):
        self.put('NULL')

    def spell_paren(self, node):
        self.put('(')
        self.spell(node.expr)
        self.put(')')


def tokens_of(items):
    """The tokens of a program, and behind how many of them each of its items ends."""
    speller, ends = Speller(), [0]
    for item in items:
        speller.spell(item)
        ends.append(len(speller.tokens))
    return speller.tokens, ends


def text_of(tokens, pick):
    """The tokens as a text with random blanks and comments, and the line of each."""
    blanks = [b' ', b'\n', b'\t', b'\r\n', b'  ', b'/* int x; \n * / */', b'/**/', b'// else " \xff\n', b'/*/*/',
              b'//\n']
    text, lines, line, last = b'', [], 1, ''
    for token in tokens:
        between = b''.join(pick.choice(blanks) for _ in range(pick.choice([0, 0, 1, 1, 2])))
        in_one = (last[-1:].isalnum() or last[-1:] == '_') and (token[0].isalnum() or token[0] == '_')
        if not between and (in_one or (last in ('=', '<', '>') and token[0] == '=')):
            between = pick.choice(blanks)
        line += between.count(b'\n')
        lines.append(line)
        text += between + token.encode()
        last = token
    return text, lines


class Refused(Exception):
    pass


class Walk:
    """The graph of a program: a text for each vertex, and the edges in the order in which they are made."""

    def __init__(self, items, kind, lines):
        self.kind, self.lines = kind, lines
        self.texts, self.edges = [], []
        self.derefs, self.addresses, self.of_deref, self.of_address = {}, {}, {}, {}
        self.functions, self.scopes = {}, [{}]
        functions = [item for item in items if item.kind == 'function']
        self.enter(functions)
        for item in items:
            if item.kind == 'function':
                params, self.back, scope = self.functions[item.name]
                self.scopes.append(dict(scope))
                self.walk_all(item.block)
                self.scopes.pop()
            else:
                self.walk(item)

    def enter(self, functions):
        for function in functions:
            if function.name in self.functions:
                self.refuse('Repeated', function)
            scope, params, back = {}, [], None
            for param in function.params:
                if param.name in scope:
                    self.refuse('Repeated', param)
                scope[param.name] = self.new(param.name)
                params.append(scope[param.name])
            if function.base != 'void' or function.stars:
                back = self.new('return ' + function.name)
            self.functions[function.name] = params, back, scope

    def refuse(self, kind, node):
        raise Refused('fault input source %d %s\n' % (self.lines[node.tok], kind))

    def new(self, text):
        self.texts.append(text)
        return len(self.texts) - 1

    def both_ways(self, source, label, destination):
        self.edges += [(source, label, destination), (destination, '-' + label, source)]

    def flow(self, node, vertex, target):
        while node.kind == 'paren':
            node = node.expr
        if node.kind != 'null':
            self.both_ways(vertex, 'a', target)
        elif self.kind == 'null':
            self.both_ways(vertex, 'n', target)

    def walk_all(self, nodes):
        for node in nodes:
            self.walk(node)

    def walk(self, node):
        """The vertex of an expression; None for a statement, and for a call that gives nothing."""
        return getattr(self, 'walk_' + node.kind)(node)

    def value(self, node):
        vertex = self.walk(node)
        if vertex is None:
            self.refuse('NoValue', node)
        return vertex

    def walk_declared(self, node):
        for var in node.variables:
            if var.name in self.scopes[-1]:
                self.refuse('Repeated', var)
            vertex = self.scopes[-1][var.name] = self.new(var.name)
            if var.value:
                self.flow(var.value, self.value(var.value), vertex)

    def walk_assign(self, node):
        place = self.value(node.place)
        self.flow(node.value, self.value(node.value), place)

    def walk_do(self, node):
        self.walk(node.call)

    def walk_block(self, node):
        self.scopes.append({})
        self.walk_all(node.stmts)
        self.scopes.pop()

    def walk_empty(self, node):
        pass

    def walk_if(self, node):
        self.value(node.condition)
        self.walk(node.body)
        if node.other:
            self.walk(node.other)

    walk_while = walk_if

    def walk_return(self, node):
        if node.value:
            if self.back is None:
                self.refuse('NoValue', node)
            self.flow(node.value, self.value(node.value), self.back)

    def walk_name(self, node):
        for scope in reversed(self.scopes):
            if node.name in scope:
                return scope[node.name]
        self.refuse('Undeclared', node)

    def walk_star(self, node):
        vertex = self.value(node.pointer)
        if vertex in self.of_address:
            return self.of_address[vertex]
        if vertex not in self.derefs:
            made = self.derefs[vertex] = self.new('*' + self.texts[vertex])
            self.of_deref[made] = vertex
            self.both_ways(vertex, 'd', made)
        return self.derefs[vertex]

    def walk_address(self, node):
        vertex = self.value(node.place)
        if vertex in self.of_deref:
            return self.of_deref[vertex]
        if vertex not in self.addresses:
            made = self.addresses[vertex] = self.new('&' + self.texts[vertex])
            self.of_address[made] = vertex
            self.both_ways(made, 'd', vertex)
        return self.addresses[vertex]

    def walk_call(self, node):
        if node.name not in self.functions:
            self.refuse('Undeclared', node)
        params, back, _ = self.functions[node.name]
        if len(node.args) != len(params):
            self.refuse('WrongArguments', node)
        for arg, param in zip(node.args, params):
            self.flow(arg, self.value(arg), param)
        if back is None:
            return None
        vertex = self.new('call ' + node.name)
        self.both_ways(back, 'a', vertex)
        return vertex

    def walk_malloc(self, node):
        self.value(node.size)
        return self.new('malloc')

    def walk_compare(self, node):
        self.value(node.left)
        self.value(node.right)
        return self.new('op')

    walk_add = walk_compare

    def walk_number(self, node):
        return self.new('number')

    def walk_null(self, node):
        return self.new('NULL')

    def walk_paren(self, node):
        return self.value(node.expr)


def wanted(items, kind, lines):
    """What emit has to print for these items, and its status."""
    try:
        walk = Walk(items, kind, lines)
    except Refused as refused:
        return str(refused).encode(), 2
    names = ''.join('# %d %s\n' % row for row in enumerate(walk.texts))
    return (names + ''.join('%d %d %s\n' % (u, v, label) for u, label, v in walk.edges)).encode(), 0


class Emit(unittest.TestCase):
    def setUp(self):
        folder = tempfile.TemporaryDirectory()
        self.addCleanup(folder.cleanup)
        self.folder = folder.name

    def emit(self, text, kind='alias', **more):
        with open(os.path.join(self.folder, 'x.c'), 'wb') as file:
            file.write(text)
        return self.run_program(['emit', kind, 'x.c'], **more)

    def run_program(self, words, stdout=subprocess.PIPE):
        done = subprocess.run([PROGRAM, 'store'] + words, cwd=self.folder, stdout=stdout, stderr=subprocess.DEVNULL)
        self.assertFalse(os.path.exists(os.path.join(self.folder, 'store')))
        return done.stdout, done.returncode


@needs_program
class Programs(Emit):
    def test_graphs_are_those_of_a_plain_walk(self):
        done = 0
        for seed in range(SEED, SEED + PROGRAMS):
            items = Maker(seed).program()
            text, lines = text_of(tokens_of(items)[0], random.Random(seed))
            for kind in ('alias', 'null'):
                with self.subTest(seed=seed, kind=kind):
                    answer = wanted(items, kind, lines)
                    self.assertEqual(self.emit(text, kind), answer)
                    done += answer[1] == 0
        self.assertGreater(done, PROGRAMS)

    def test_a_text_that_ends_early_is_refused_at_its_last_token(self):
        for seed in range(SEED, SEED + PROGRAMS // 2):
            pick, items = random.Random(seed), Maker(seed).program()
            tokens, ends = tokens_of(items)
            kept = pick.randrange(len(tokens))
            text, lines = text_of(tokens[:kept], pick)
            if kept in ends:
                answer = wanted(items[:ends.index(kept)], 'alias', lines)
            else:
                answer = b'fault input source %d Unexpected\n' % lines[-1], 2
            with self.subTest(seed=seed):
                self.assertEqual(self.emit(text), answer)

    def test_a_text_without_one_token_is_a_graph_or_one_fault(self):
        for seed in range(SEED, SEED + PROGRAMS):
            pick = random.Random(seed)
            tokens, _ = tokens_of(Maker(seed).program())
            del tokens[pick.randrange(len(tokens))]
            text, lines = text_of(tokens, pick)
            out, status = self.emit(text)
            with self.subTest(seed=seed):
                self.assertIn(status, (0, 2))
                if status:
                    fault = FAULT.fullmatch(out)
                    self.assertTrue(fault, out)
                    self.assertIn(int(fault[1]), lines)

    def test_a_byte_that_begins_no_token_is_refused_in_its_line_before_all_else(self):
        for seed in range(SEED, SEED + PROGRAMS // 4):
            pick = random.Random(seed)
            tokens, _ = tokens_of(Maker(seed).program())
            place = pick.randrange(len(tokens))
            tokens.insert(place, pick.choice('@"#$.[]?|~^%:\\\''))
            text, lines = text_of(tokens, pick)
            with self.subTest(seed=seed):
                self.assertEqual(self.emit(text), (b'fault input source %d BadByte\n' % lines[place], 2))


# A program, and its vertices and edges for the kinds alias and null, without the inverse of each edge.
ROWS = [
    ('int *p; void f() { *p = *p; }', ['p', '*p'], ['0 1 d', '1 1 a'], ['0 1 d', '1 1 a']),
    ('int x; int y = *(&x);', ['x', 'y', '&x'], ['2 0 d', '0 1 a'], ['2 0 d', '0 1 a']),
    ('int *p, *q = &*p;', ['p', 'q', '*p'], ['0 2 d', '0 1 a'], ['0 2 d', '0 1 a']),
    ('int **p, x = **p;', ['p', 'x', '*p', '**p'], ['0 2 d', '2 3 d', '3 1 a'], ['0 2 d', '2 3 d', '3 1 a']),
    ('int x = (1 + 2) < 3;', ['x', 'number', 'number', 'op', 'number', 'op'], ['5 0 a'], ['5 0 a']),
    ('int x = 1 - 2 - 3;', ['x', 'number', 'number', 'op', 'number', 'op'], ['5 0 a'], ['5 0 a']),
    ('int *x = malloc(1);', ['x', 'number', 'malloc'], ['2 0 a'], ['2 0 a']),
    ('void f() { malloc(1); }', ['number', 'malloc'], [], []),
    ('int *x = ((NULL));', ['x', 'NULL'], [], ['1 0 n']),
    ('int *x; int y = x == NULL;', ['x', 'y', 'NULL', 'op'], ['3 1 a'], ['3 1 a']),
    ('int *f(int *a) { return a; } int *x = f(NULL);', ['a', 'return f', 'x', 'NULL', 'call f'],
     ['0 1 a', '1 4 a', '4 2 a'], ['0 1 a', '3 0 n', '1 4 a', '4 2 a']),
    ('void g(int a) { } void f() { g(1); }', ['a', 'number'], ['1 0 a'], ['1 0 a']),
    ('int f(int c) { if (c) c = 1; else while (c) return c; }', ['c', 'return f', 'number'],
     ['2 0 a', '0 1 a'], ['2 0 a', '0 1 a']),
    ('int x = x;', ['x'], ['0 0 a'], ['0 0 a']),
    ('int x; void f(int x) { x = 1; { int x = 2; } }', ['x', 'x', 'number', 'x', 'number'], ['2 0 a', '4 3 a'],
     ['2 0 a', '4 3 a']),
    ('void f() { if (1) int y; y = 2; }', ['number', 'y', 'number'], ['2 1 a'], ['2 1 a']),
    ('void f() { g(); } void g() { } int f;', ['f'], [], []),
]

# A program, and the kind and line of its refusal: where two could hold, the first one.
REFUSED = [
    ('void f() { x = 1; }\nint f() { }', 'Repeated', 2),
    ('void f() { x = 1; } void g(int a,\nint a) { }', 'Repeated', 2),
    ('void f(int a) {\nint a; }', 'Repeated', 2),
    ('int x; void f() { int y,\n y; }', 'Repeated', 2),
    ('void f() { { int y; }\ny = 2; }', 'Undeclared', 2),
    ('void f() {\nx = y; }\nint x;', 'Undeclared', 2),
    ('void f() {\ng(x); }', 'Undeclared', 2),
    ('int x; void f() {\nx(); }', 'Undeclared', 2),
    ('void f(int a) {\nf(x, 1); }', 'WrongArguments', 2),
    ('void f(int a) { f(\nx); }', 'Undeclared', 2),
    ('void f(int a) { int x =\nf(x); }', 'NoValue', 2),
    ('void f(int a) { int x = f(\ny); }', 'Undeclared', 2),
    ('void f() { *\nf() = x; }', 'NoValue', 2),
    ('void f() { \nreturn\nx; }', 'NoValue', 2),
]


@needs_program
class ByHand(Emit):
    def test_graphs(self):
        for text, names, *edges in ROWS:
            for kind, wanted_edges in zip(('alias', 'null'), edges):
                lines = ['# %d %s' % row for row in enumerate(names)]
                for u, v, label in (edge.split() for edge in wanted_edges):
                    lines += ['%s %s %s' % (u, v, label), '%s %s -%s' % (v, u, label)]
                with self.subTest(text, kind=kind):
                    self.assertEqual(self.emit(text.encode(), kind), (''.join(l + '\n' for l in lines).encode(), 0))

    def test_refusals(self):
        for text, kind, line in REFUSED:
            with self.subTest(text):
                self.assertEqual(self.emit(text.encode()), (b'fault input source %d %s\n' % (line, kind.encode()), 2))


def nested(front, opening, inner, closing, back, times):
    return (front + opening * times + inner + closing * times + back).encode()


# Each form as text, with how often it may stand in itself: what is open around it takes the rest of the 200 levels.
NESTED = [
    ('int x =\n', '(', '1', ')', '\n;', 200),
    ('int *y; int x =\n', '*', 'y', '', '\n;', 200),
    ('int f()\n', '{', '', '}', '\n', 200),
    ('int f() {\n', 'if (1) ', ';', '', '\n}', 199),
    ('int f() {\n', 'if (1) ; else ', ';', '', '\n}', 199),
    ('int f() {\n', 'while (1) ', ';', '', '\n}', 199),
    ('int f(int x) { x =\n', 'f(', '1', ')', '\n; }', 199),
    ('int x = \n', 'malloc(', '1', ')', '\n;', 200),
    ('int *y; int f() {\n', '*', 'y', '', '\n = 1; }', 199),
    ('int *y; int *x = &\n', '*', 'y', '', '\n;', 200),
]


@needs_program
class BadInput(Emit):
    def test_two_hundred_levels_pass_and_one_more_is_too_deep(self):
        for row in NESTED:
            *parts, times = row
            with self.subTest(row):
                self.assertEqual(self.emit(nested(*parts, times))[1], 0)
                self.assertEqual(self.emit(nested(*parts, times + 1)), (b'fault input source 2 TooDeep\n', 2))

    def test_a_source_has_at_most_16777216_bytes(self):
        longest = b'int x;\n' + b' ' * (16777216 - 7)
        self.assertEqual(self.emit(longest), (b'# 0 x\n', 0))
        self.assertEqual(self.emit(longest + b' '), (b'fault input source 2 TooLong\n', 2))
        # The line feed at this place belongs to the line that it ends, and the length is asked before the tokens.
        self.assertEqual(self.emit(longest + b'\n@'), (b'fault input source 2 TooLong\n', 2))
        self.assertEqual(self.emit(longest[:-1] + b'\n@'), (b'fault input source 3 TooLong\n', 2))

    def test_texts(self):
        long = b'n' * 255
        for text, out, status in [
            (b'int x', b'fault input source 1 Unexpected\n', 2),
            (b'int x; int y\n\n', b'fault input source 1 Unexpected\n', 2),
            (b'\n\n', b'', 0),
            (b'// no line feed', b'', 0),
            (b'int x;\n\0', b'fault input source 2 BadByte\n', 2),
            (b'int\0x;', b'fault input source 1 BadByte\n', 2),
            (b'/* \0 */ int x;', b'# 0 x\n', 0),
            (b'int\rx;\r', b'# 0 x\n', 0),
            (b'// x\rint x;', b'', 0),
            (b'int x;\r@', b'fault input source 1 BadByte\n', 2),
            (b'\r\n@', b'fault input source 2 BadByte\n', 2),
            (b'int ' + long + b';', b'# 0 ' + long + b'\n', 0),
            (b'\nint ' + long + b'n;', b'fault input source 2 NameTooLong\n', 2),
            (b'int ' + b'n' * 5000, b'fault input source 1 NameTooLong\n', 2),
            (b'int x = ' + b'9' * 5000 + b';', b'# 0 x\n# 1 number\n1 0 a\n0 1 -a\n', 0),
            (b'/*/', b'fault input source 1 OpenComment\n', 2),
            (b'\n/**\n*', b'fault input source 2 OpenComment\n', 2),
            (b'int x = 1 ! 2;', b'fault input source 1 BadByte\n', 2),
            (b'int x = 1 / 2;', b'fault input source 1 BadByte\n', 2),
            (b'int x = 1 < = 2;', b'fault input source 1 Unexpected\n', 2),
            (b'\xef\xbb\xbfint x;', b'fault input source 1 BadByte\n', 2),
            (b'int \xc3\xa9;', b'fault input source 1 BadByte\n', 2),
        ]:
            with self.subTest(text[:40]):
                self.assertEqual(self.emit(text), (out, status))

    def test_words_and_files(self):
        for kind in ('c', 'Alias', 'aliases', 'null ', ''):
            self.assertEqual(self.emit(b'int x;', kind), (b'fault words\n', 1), kind)
        self.assertEqual(self.run_program(['emit', 'alias', 'missing.c']), (b'fault read\n', 4))
        os.mkdir(os.path.join(self.folder, 'sources'))
        self.assertEqual(self.run_program(['emit', 'alias', 'sources']), (b'fault read\n', 4))

    @unittest.skipUnless(os.path.exists('/dev/full'), 'no /dev/full')
    def test_a_full_output(self):
        with open('/dev/full', 'wb') as full:
            self.assertEqual(self.emit(b'int x;', stdout=full)[1], 6)
            self.assertEqual(self.emit(b'', stdout=full)[1], 0)


if __name__ == '__main__':
    unittest.main()
