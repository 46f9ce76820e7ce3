"""zlib, as examples/zlib.sh leaves it: pairs that alias by reading its source, and pairs that don't, asked by name.

GRASPAN_ZLIB names the folder that examples/zlib.sh has filled.
"""
import os
import subprocess
import sys
import unittest

from program import TOOLS, graspan, needs_program

FOLDER = os.environ.get('GRASPAN_ZLIB', '')

# inflate_fast writes a literal at line 120 and copies what was written before at line 240 (from = out - dist).
# longest_match compares two places of the window at line 1376. fill_window lets read_buf write into the window.
ALIASES = [
    ('*out in inflate_fast (inffast.c:120)', '*from in inflate_fast (inffast.c:240)'),
    ('*match in longest_match (deflate.c:1376)', '*scan in longest_match (deflate.c:1376)'),
    ('*buf in read_buf (deflate.c:1227)', '*scan in longest_match (deflate.c:1376)'),
]

# The lengths of codes are an array of the state and no output. The table of earlier places is an array of its own
# beside the window. What inflate writes goes to the caller, and never to the window of deflate.
OTHERS = [
    ('*out in inflate_fast (inffast.c:120)', 'inflate_state.lens[..] in inflateBack (infback.c:385)'),
    ('*match in longest_match (deflate.c:1376)', 'prev[..] in longest_match (deflate.c:1417)'),
    ('*out in inflate_fast (inffast.c:120)', '*match in longest_match (deflate.c:1376)'),
]


@needs_program
@unittest.skipUnless(FOLDER, 'GRASPAN_ZLIB names no folder that examples/zlib.sh has filled')
class Zlib(unittest.TestCase):
    def number(self, name):
        done = subprocess.run([sys.executable, os.path.join(TOOLS, 'graspan_names.py'), 'zlib.edges', '--find', name],
                              cwd=FOLDER, capture_output=True, text=True)
        lines = [line for line in done.stdout.split('\n') if line.split(' ', 1)[1:] == [name]]
        self.assertGreaterEqual(len(lines), 1, name)
        return lines[0].split()[0]

    def last_line(self, pair):
        done = graspan(['store', 'query', 'M', self.number(pair[0]), self.number(pair[1])], FOLDER)
        self.assertEqual(done.returncode, 0, done.stdout)
        return done.stdout.strip().split('\n')[-1]

    def test_pairs(self):
        for pairs, wanted in ((ALIASES, 'count 1'), (OTHERS, 'count 0')):
            for pair in pairs:
                with self.subTest(pair):
                    self.assertEqual(self.last_line(pair), wanted)
                    self.assertEqual(self.last_line(pair[::-1]), wanted)


if __name__ == '__main__':
    unittest.main()
