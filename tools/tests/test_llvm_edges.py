"""The converter on small files of LLVM IR, with their edges worked out by hand, and on what is no LLVM IR."""
import os
import subprocess
import sys
import tempfile
import unittest

TOOLS = os.path.dirname(os.path.dirname(os.path.abspath(__file__)))


def run(arguments, folder=None):
    return subprocess.run([sys.executable, os.path.join(TOOLS, 'llvm_edges.py')] + arguments, cwd=folder,
                          capture_output=True, text=True)


def edges_by_name(text, labels=('a', 'd', 'n')):
    """The edges whose labels are no inverses, with the names of their vertices, sorted."""
    names, edges = {}, []
    for line in text.split('\n'):
        words = line.split(None, 2)
        if len(words) == 3 and words[0] == '#' and words[1].isdigit():
            names[words[1]] = words[2].split(' in ')[0].split(' (')[0]
        elif len(words) == 3 and words[0] != '#' and words[2] in labels:
            edges.append('%s -%s-> %s' % (names[words[0]], words[2], names[words[1]]))
    return sorted(edges)


def function(body, head='define ptr @f(ptr %p, ptr %q)'):
    return '%s {\n%s\n}\n' % (head, '\n'.join('  ' + line for line in body))


IDENTITY = function(['ret ptr %x'], 'define internal ptr @id(ptr %x)')

# Each with its kind, its text and its edges.
CASES = {
    'a load and a store, opaque': ('alias', function([
        '%x = load ptr, ptr %p, align 8', 'store ptr %x, ptr %q, align 8', 'ret ptr %x']), [
            'parameter p -d-> *parameter p', '*parameter p -a-> *parameter p', '*parameter p -a-> *parameter q',
            'parameter q -d-> *parameter q', '*parameter p -a-> return f']),
    'a load and a store, typed': ('alias', function([
        '%x = load i8*, i8** %p, align 8', 'store i8* %x, i8** %q, align 8', 'ret i8* %x'],
        'define i8* @f(i8** %p, i8** %q)'), [
            'parameter p -d-> *parameter p', '*parameter p -a-> *parameter p', '*parameter p -a-> *parameter q',
            'parameter q -d-> *parameter q', '*parameter p -a-> return f']),
    'numbers make memory, and no flow': ('alias', function([
        '%x = load i32, ptr %p', 'store i32 %x, ptr %q', 'ret ptr null']), [
            'parameter p -d-> *parameter p', 'parameter q -d-> *parameter q']),
    'casts, address arithmetic, choices': ('alias', function([
        '%a = bitcast ptr %p to ptr', '%b = getelementptr inbounds i8, ptr %a, i64 4', 'br label %next', '',
        '; a comment', '%c = phi ptr [ %b, %0 ], [ %q, %next ]', '%d = select i1 true, ptr %c, ptr %p',
        'ret ptr %d']), [
                'parameter p -a-> parameter p', 'parameter p -a-> &parameter p[..]', '&parameter p[..] -a-> %c',
                'parameter q -a-> %c', '%c -a-> %d', 'parameter p -a-> %d', '%d -a-> return f']),
    'NULL is a source, for null': ('null', function(['store ptr null, ptr %p', 'ret ptr null']), [
        'parameter p -d-> *parameter p', 'NULL -n-> *parameter p', 'NULL -n-> return f']),
    'data flow has no inverses and no pointees': ('dataflow', function(['store ptr null, ptr %p', 'ret ptr %q']), [
        'NULL -n-> *parameter p', 'parameter q -a-> return f']),
    'calls link arguments and results': ('alias', IDENTITY + function([
        '%r = call ptr @id(ptr noundef %p)', '%s = tail call ptr @id(ptr %q)', 'ret ptr %s']), [
            'parameter x -a-> return id', 'parameter p -a-> parameter x', 'parameter q -a-> parameter x',
            'return id -a-> id()', 'return id -a-> id()', 'id() -a-> return f']),
    'malloc and realloc': ('alias', 'declare ptr @malloc(i64)\ndeclare ptr @realloc(ptr, i64)\n' + function([
        '%a = call noalias ptr @malloc(i64 8) #2', '%b = call ptr @realloc(ptr %a, i64 9)', 'ret ptr %b']), [
            'malloc -a-> malloc()', 'realloc -a-> realloc()', 'malloc() -a-> realloc()', 'realloc() -a-> return f']),
    'globals and what they hold': (
        'alias', '@x = global i32 0\n@px = global ptr @x\n@"a b" = internal global [2 x ptr] '
        '[ptr @x, ptr getelementptr (i8, ptr @px, i64 1)]\n' + function(['ret ptr @"a b"']), [
            '&px -d-> px', '&x -a-> px', '&"a b" -d-> "a b"', '&x -a-> "a b"', '&px -a-> "a b"',
            '&"a b" -a-> return f']),
    'copies of memory': ('alias', function([
        'call void @llvm.memcpy.p0.p0.i64(ptr align 8 %p, ptr align 8 %q, i64 16, i1 false)', 'ret ptr %p']), [
            'parameter p -d-> *parameter p', 'parameter q -d-> *parameter q', '*parameter q -a-> *parameter p',
            'parameter p -a-> return f']),
    'quotes and spaces in names': ('alias', function(['%"my x" = load ptr, ptr %"the p"', 'ret ptr %"my x"'],
                                                     'define ptr @"a f"(ptr %"the p")'), [
        'parameter "the p" -d-> *parameter "the p"', '*parameter "the p" -a-> *parameter "the p"',
        '*parameter "the p" -a-> return "a f"']),
}

# Each with its text and what the message has to have.
REFUSED = {
    'no IR': ('int main(void) { return 0; }\n', 'x.ll:1: this is no LLVM IR: int main'),
    'an end within a function': ('define void @f() {\n  ret void\n', 'x.ll:2: the file ends within the function f'),
    'an end within a line': ('define void @f() {\n  %x = load ptr, ptr', 'the file ends within the function f'),
    'no function': ('source_filename = "x.c"\n@x = global i32 0\n', 'x.ll:3: the file ends, and it has no function'),
    'empty': ('', 'x.ll:1: the file ends, and it has no function'),
    'no instruction': ('define void @f() {\n  !!\n}\n', 'x.ll:2: this is no instruction: !!'),
    'a bracket without an end': (
        'define void @f() {\n  %x = load [2 x ptr, ptr %p\n}\n', 'x.ll:2: this is no instruction'),
    'a head without an end': (
        'define void @f(ptr %p {\n  ret void\n}\n', 'x.ll:1: this is no LLVM IR: define void @f(ptr %p {'),
    'a result that is missing': ('define void @f() {\n  alloca ptr\n}\n', 'x.ll:2: this is no instruction: alloca ptr'),
    'bytes': ('\x00\x01\x02', 'x.ll:1: this is no LLVM IR'),
}


class Converter(unittest.TestCase):
    maxDiff = None

    def convert(self, text, kind):
        with tempfile.TemporaryDirectory() as folder:
            with open(os.path.join(folder, 'x.ll'), 'w') as file:
                file.write(text)
            return run(['--for', kind, 'x.ll'], folder)

    def test_edges_by_hand(self):
        for name, (kind, text, wanted) in CASES.items():
            with self.subTest(name):
                done = self.convert(text, kind)
                self.assertEqual(done.returncode, 0, done.stderr)
                self.assertEqual(edges_by_name(done.stdout), sorted(wanted))

    def test_inverses_stand_beside(self):
        text = self.convert(CASES['NULL is a source, for null'][1], 'null').stdout
        edges = {tuple(line.split()) for line in text.split('\n') if line and line[0] != '#'}
        self.assertEqual(len(edges), 6)
        for source, destination, label in edges:
            other = label[1:] if label[0] == '-' else '-' + label
            self.assertIn((destination, source, other), edges)

    def test_what_is_left_out_is_counted(self):
        body = ['%r = call ptr %p(ptr %q)', '%s = call ptr @getenv(ptr %q)', 'ret ptr %s']
        done = self.convert(function(body), 'alias')
        self.assertIn('left out: 1 calls through pointers', done.stderr)
        self.assertIn('left out: 1 calls of functions without a body', done.stderr)

    def test_refusals(self):
        for name, (text, message) in REFUSED.items():
            with self.subTest(name):
                done = self.convert(text, 'alias')
                self.assertEqual((done.returncode, done.stdout), (1, ''))
                self.assertIn(message, done.stderr)
                self.assertNotIn('Traceback', done.stderr)

    def test_a_file_that_is_not_there(self):
        done = run(['nowhere.ll'])
        self.assertEqual(done.returncode, 1)
        self.assertIn('nowhere.ll', done.stderr)
        self.assertNotIn('Traceback', done.stderr)

    def test_files_are_one_program(self):
        with tempfile.TemporaryDirectory() as folder:
            caller = function(['%r = call ptr @id(ptr %p)', 'ret ptr %r'])
            for name, text in (('one.ll', IDENTITY.replace('internal ', '')),
                               ('two.ll', 'declare ptr @id(ptr)\n' + caller)):
                with open(os.path.join(folder, name), 'w') as file:
                    file.write(text)
            done = run(['one.ll', 'two.ll'], folder)
        self.assertEqual(edges_by_name(done.stdout), [
            'id() -a-> return f', 'parameter p -a-> parameter x', 'parameter x -a-> return id', 'return id -a-> id()'])


if __name__ == '__main__':
    unittest.main()
