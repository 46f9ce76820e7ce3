"""The reader of a store: the worked example of docs/FORMATS.md, damage to it, and random stores beside the program."""
import os
import random
import subprocess
import sys
import tempfile
import unittest

from program import TOOLS, graspan, needs_program

# The worked example of docs/FORMATS.md: g0001 is the manifest after the one step, and g0005 its partition.
MANIFEST = bytes.fromhex(
    '01 47534d31 01 0200000000000000 03000000 0600000000000000 0c00000000000000 0300 0153 0161 0162'
    '0100 03000000 05000000 0100000000000000 0300000000000000 0200000000000000')
PARTITION = bytes.fromhex('47535032 00000000 03000000 02 00 02 01 01 01 00 01 02 02 00 00')
FIRST_PARTITION = bytes.fromhex(  # the same in format 1
    '47535031 00000000 03000000 0200000000000000 0000 02000000 0100000000000000 0100 01000000 0000000000000000'
    '0100000000000000 0200 02000000 0000000000000000 0000000000000000')
FILES = {'g0000': b'\0' + MANIFEST[1:], 'g0001': MANIFEST, 'g0002': b'S a b\n', 'g0003': b'0 1 a\n1 2 b\n',
         'g0005': PARTITION}


def read(words, folder):
    return subprocess.run([sys.executable, os.path.join(TOOLS, 'graspan_store.py')] + words, cwd=folder,
                          capture_output=True, text=True)


def write(folder, files):
    os.mkdir(os.path.join(folder, 'store'))
    for name, content in files.items():
        with open(os.path.join(folder, 'store', name), 'wb') as file:
            file.write(content)


class WorkedExample(unittest.TestCase):
    def reads(self, files, words):
        with tempfile.TemporaryDirectory() as folder:
            write(folder, files)
            return read(['store'] + words, folder)

    def test_lines(self):
        self.assertEqual(self.reads(FILES, ['parts']).stdout, 'vertices 3\npart 0 0 3 3\nfinished\n')
        self.assertEqual(self.reads(FILES, ['labels']).stdout, 'label S 1\nlabel a 1\nlabel b 1\n')
        self.assertEqual(self.reads(FILES, ['dump']).stdout, '0 2 S\n0 1 a\n1 2 b\n')
        self.assertEqual(self.reads(FILES, ['dump', 'a']).stdout, '0 1 a\n')
        first = dict(FILES, g0005=FIRST_PARTITION)
        self.assertEqual(self.reads(first, ['dump']).stdout, '0 2 S\n0 1 a\n1 2 b\n')

    def test_work_that_is_left(self):
        undone = dict(FILES, g0001=MANIFEST[:-8] + (1).to_bytes(8, 'little'))
        self.assertEqual(self.reads(undone, ['parts']).stdout, 'vertices 3\npart 0 0 3 3\nunfinished 0 0\n')

    def test_refusals(self):
        later = dict(FILES, g0001=MANIFEST.replace(b'GSM1', b'GSM2'))
        short = dict(FILES, g0001=MANIFEST[:40])
        extra = dict(FILES, g0005=PARTITION + b'x')
        other = dict(FILES, g0005=b'GSP9' + PARTITION[4:])
        cut = dict(FILES, g0005=PARTITION[:20])
        spare = dict(FILES, g0005=PARTITION[:12] + b'\x82' + PARTITION[13:])
        blank = dict(FILES, g0001=b'\0' + MANIFEST[1:])
        late = dict(FILES, g0005=PARTITION[:15] + b'\2' + PARTITION[16:])
        fewer = dict(FILES, g0005=PARTITION[:15] + b'\0' + PARTITION[16:])
        rounds = dict(FILES, g0001=MANIFEST[:6] + b'\5' + MANIFEST[7:])
        for files, message in ((later, 'store/g0001 is of another format'), (short, 'store/g0001 is damaged at byte'),
                               (extra, 'store/g0005 is damaged at byte 24: bytes stand behind its end'),
                               (other, 'store/g0005 is of another format'), (cut, 'store/g0005 is damaged at byte'),
                               (late, 'store/g0005 is damaged at byte'),
                               (spare, 'store/g0005 is damaged at byte 12: no number goes on so'), (rounds, 'store/g0001 is damaged at byte 6'),
                               (fewer, 'store/g0005 is damaged at byte 0: it has other edges than the manifest counts'),
                               (blank, 'store holds no store')):
            with self.subTest(message):
                done = self.reads(files, ['dump'])
                self.assertEqual(done.returncode, 1)
                self.assertIn(message, done.stderr)
                self.assertNotIn('Traceback', done.stderr)
        for words in (['dump', 'Z'], ['dot', 'S', '3', 'x.dot'], ['dot', 'S', 'x', 'x.dot'],
                      ['dot', 'S', '-1', 'x.dot'], ['svg', 'no/such/x.svg'], ['paint'], []):
            with self.subTest(words):
                done = self.reads(FILES, words)
                self.assertEqual(done.returncode, 1)
                self.assertNotIn('Traceback', done.stderr)

    def test_pictures(self):
        with tempfile.TemporaryDirectory() as folder:
            write(folder, dict(FILES, g0003=b'# 0 x "y"\n'))
            self.assertEqual(read(['store', 'svg', 'x.svg'], folder).stderr, '')
            self.assertEqual(read(['store', 'dot', 'S', '0', 'x.dot'], folder).stderr, '')
            with open(os.path.join(folder, 'x.svg')) as file:
                svg = file.read()
            with open(os.path.join(folder, 'x.dot')) as file:
                dot = file.read()
        self.assertIn('3 vertices, 3 edges in 1 partitions, round 2: closed', svg)
        self.assertIn('<title>3 edges from 0 to 0</title>', svg)
        self.assertIn('0 -> 2 [label="S"];', dot)
        self.assertIn('0 [label="x \\"y\\"" style=bold];', dot)


@needs_program
class RandomStores(unittest.TestCase):
    maxDiff = None

    def test_twenty_stores_read_as_the_program_prints_them(self):
        chance = random.Random(7)
        for number in range(20):
            vertices, lines = chance.randint(1, 60), chance.randint(0, 150)
            edges = ['%d %d %s' % (chance.randrange(vertices), chance.randrange(vertices), chance.choice('ab'))
                     for _ in range(lines)]
            rules = chance.choice(['S a b\nS a S b\n', 'T a\nT T a\n', 'S\nS a S b S\n', 'X a\nX b a X\n'])
            size = chance.choice(['1', '7', '40', '1000000'])
            with self.subTest(number=number), tempfile.TemporaryDirectory() as folder:
                for name, text in (('e', '\n'.join(edges)), ('g', rules)):
                    with open(os.path.join(folder, name), 'w') as file:
                        file.write(text)
                run = graspan(['store', 'run', 'e', 'g', '--part-edges', size], folder)
                self.assertEqual(run.returncode, 0, run.stdout)
                for words in (['parts'], ['dump']):
                    self.assertEqual(read(['store'] + words, folder).stdout, graspan(['store'] + words, folder).stdout)
                labels = [line for line in run.stdout.split('\n') if line.startswith('label ')]
                self.assertEqual(read(['store', 'labels'], folder).stdout.split('\n')[:-1], labels)


if __name__ == '__main__':
    unittest.main()
