"""Names for numbers, and numbers for names."""
import os
import subprocess
import sys
import tempfile
import unittest

from program import TOOLS

EDGES = '# a comment\n# 0 &x in f (x.c:1)\n# 1 *p in f (x.c:3)\n# 12 *p in g (x.c:9)\n#3 no name\n0 1 a\n'
NO_NUMBER = '# %s a number of 5000 digits\n' % ('9' * 5000)


class Names(unittest.TestCase):
    def run_on(self, words, given='', edges=EDGES):
        with tempfile.TemporaryDirectory() as folder:
            with open(os.path.join(folder, 'x.edges'), 'w') as file:
                file.write(edges)
            return subprocess.run([sys.executable, os.path.join(TOOLS, 'graspan_names.py')] + words, cwd=folder,
                                  input=given, capture_output=True, text=True)

    def test_answers_are_rewritten(self):
        lines = 'answer 0 1\nanswer 12 7\ncount 2\ndone\nanswer x 1\nanswer \u00b2 1\n'
        done = self.run_on(['x.edges'], lines, EDGES + NO_NUMBER)
        self.assertEqual(done.stdout, 'answer &x in f (x.c:1)  ->  *p in f (x.c:3)\n'
                         'answer *p in g (x.c:9)  ->  7\ncount 2\ndone\nanswer x 1\nanswer \u00b2 1\n')

    def test_numbers_are_found(self):
        self.assertEqual(self.run_on(['x.edges', '--find', '*p']).stdout, '1 *p in f (x.c:3)\n12 *p in g (x.c:9)\n')
        self.assertEqual(self.run_on(['x.edges', '--find', '*p in g (x.c:9)']).stdout, '12 *p in g (x.c:9)\n')

    def test_refusals(self):
        for words, edges, message in ((['x.edges', '--find', 'zzz'], EDGES, "has 'zzz' in its name"),
                                      (['x.edges'], '0 1 a\n', 'x.edges names no vertex'),
                                      (['no.edges'], EDGES, 'no.edges')):
            with self.subTest(message):
                done = self.run_on(words, '', edges)
                self.assertEqual((done.returncode, done.stdout), (1, ''))
                self.assertIn(message, done.stderr)
                self.assertNotIn('Traceback', done.stderr)


if __name__ == '__main__':
    unittest.main()
