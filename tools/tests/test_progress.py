"""The line of progress: seen on a terminal and gone at the end, and never in the way of what is printed."""
import os
import pty
import re
import subprocess
import tempfile
import unittest

from program import PROGRAM, graspan, needs_program

CONTROL = re.compile('\x1b\\[K|\x1b\\[\\?7[lh]|[^\x1b]')
CHAIN = '\n'.join('%d %d a' % (v, v + 1) for v in range(1500)) + '\n'


def on_a_terminal(words, folder, env):
    """What the program writes to a terminal as its standard error, its standard output, and its status."""
    master, slave = pty.openpty()
    with open(os.path.join(folder, 'out'), 'w') as out:
        process = subprocess.Popen([PROGRAM] + words, cwd=folder, stdout=out, stderr=slave, env=env)
        os.close(slave)
        text = b''
        while True:
            try:
                piece = os.read(master, 65536)
            except OSError:
                piece = b''
            if not piece:
                break
            text += piece
    os.close(master)
    status = process.wait()
    with open(os.path.join(folder, 'out')) as out:
        return text.decode(), out.read(), status


def rows_shown(text, columns):
    """How many rows of a terminal of so many columns the text takes, and what stands on the last one at the end."""
    rows, column, wraps = [[]], 0, True
    for token in CONTROL.findall(text):
        if token == '\r':
            column = 0
        elif token == '\x1b[K':
            del rows[-1][column:]
        elif token.startswith('\x1b'):
            wraps = token.endswith('h')
        else:
            if column == columns and wraps:
                rows.append([])
            column = min(column, columns - 1) if not wraps else column % columns
            rows[-1][column:column + 1] = [token]
            column += 1
    return len(rows), ''.join(rows[-1])


def said_by(words, folder, env):
    """What the program writes to a standard error that is no terminal, with its carriage returns."""
    return subprocess.run([PROGRAM] + words, cwd=folder, capture_output=True, env=env).stderr.decode()


@needs_program
class Progress(unittest.TestCase):
    def setUp(self):
        self.folder = tempfile.TemporaryDirectory()
        for name, text in (('e', CHAIN), ('g', 'a a a\n')):
            with open(os.path.join(self.folder.name, name), 'w') as file:
                file.write(text)

    def tearDown(self):
        self.folder.cleanup()

    def run_words(self, store):
        return [store, 'run', 'e', 'g', '--part-edges', '300']

    def environment(self, value):
        env = {name: text for name, text in os.environ.items() if name != 'GRASPAN_PROGRESS'}
        return env if value is None else dict(env, GRASPAN_PROGRESS=value)

    def test_it_is_seen_on_a_terminal_and_gone_at_the_end(self):
        text, out, status = on_a_terminal(self.run_words('s'), self.folder.name, self.environment(None))
        self.assertEqual(status, 0)
        self.assertIn('closing  step ', text)
        self.assertIn(' pairs left  ', text)
        self.assertTrue(text.endswith('\r\x1b[K'), repr(text[-60:]))
        self.assertNotIn('\n', text)
        plain = graspan(self.run_words('t'), self.folder.name, env=self.environment('0'))
        self.assertEqual(out, plain.stdout)

    def test_a_narrow_terminal_keeps_it_on_one_row(self):
        text, _, status = on_a_terminal(self.run_words('s'), self.folder.name, self.environment(None))
        self.assertEqual(status, 0)
        self.assertRegex(text, 'closing  step [^\r\x1b]{40}')
        self.assertEqual(rows_shown(text, 40), (1, ''))

    def test_it_is_never_seen_where_that_is_asked(self):
        text, _, _ = on_a_terminal(self.run_words('s'), self.folder.name, self.environment('0'))
        self.assertEqual(text, '')

    def test_it_is_seen_elsewhere_only_where_that_is_asked(self):
        self.assertEqual(graspan(self.run_words('s'), self.folder.name, env=self.environment(None)).stderr, '')
        text = said_by(self.run_words('t'), self.folder.name, self.environment('1'))
        self.assertIn('\rclosing  step ', text)
        self.assertRegex(text, '\r *\r$')

    def test_a_closed_standard_error_stops_nothing(self):
        done = subprocess.run(
            ['/bin/sh', '-c', 'exec "$0" "$@" 2>&-', PROGRAM] + self.run_words('s'), cwd=self.folder.name,
            capture_output=True, text=True, env=self.environment('1'))
        self.assertEqual(done.returncode, 0)
        self.assertTrue(done.stdout.endswith('done\n'))


@needs_program
class Sentences(unittest.TestCase):
    """One sentence on standard error beside the line of a fault."""

    def said(self, words, files=()):
        with tempfile.TemporaryDirectory() as folder:
            for name, text in files:
                with open(os.path.join(folder, name), 'w') as file:
                    file.write(text)
            done = graspan(words, folder)
            return done.returncode, done.stdout, done.stderr

    def test_faults(self):
        good = ('e', '0 1 a\n'), ('g', 'S a\n')
        run = ['s', 'run', 'e', 'g']
        for words, files, status, out, said in (
                ([], (), 1, 'fault words\n', 'the folder of the store and a command are missing'),
                (run + ['--worker', '3'], good, 1, 'fault words\n', 'no option --worker; did you mean --workers?'),
                (run, (('g', 'S a\n'),), 4, 'fault read\n', 'cannot read e: no such file or folder'),
                (run, (('e', '0 1 a\n'),), 4, 'fault read\n', 'cannot read g: no such file or folder'),
                (run, (('e', '0 1 a\nx1 2 b\n'), good[1]), 2, 'fault input edges 2 BadSource\n',
                 "e:2: 'x1' is not a vertex (a number from 0 to 16777215)"),
                (run, (good[0], ('g', '\n\nS \x01\n')), 2, 'fault input grammar 3 BadLabel\n',
                 "g:3: '\\x01' is not a label"),
                (['a/b'] + run[1:], good, 5, 'fault disk\n',
                 "cannot make the folder a/b: the folder above it isn't there"),
                (['s', 'parts'], (), 9, 'fault no store\n', 's: nothing was imported here'),
                (run + ['--show', 'Z'], good, 11, 'fault not known\n', "the label 'Z' of --show")):
            with self.subTest(said):
                got = self.said(words, files)
                self.assertEqual(got[:2], (status, out))
                self.assertTrue(got[2].startswith('graspan: ') and got[2].count('\n') == 1, got[2])
                self.assertIn(said, got[2])

    def test_nothing_is_said_of_success(self):
        self.assertEqual(self.said(['s', 'run', 'e', 'g'], (('e', '0 1 a\n'), ('g', 'S a\n')))[2], '')


if __name__ == '__main__':
    unittest.main()
