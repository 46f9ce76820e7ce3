#!/usr/bin/env python3
"""Stores that an older program made are gone on with: older_store.py OLD PROGRAM FOLDER [STOPS [SEED]]

OLD is a program that writes partition files in format 1, PROGRAM the one as built, FOLDER has the graphs and grammars.
A run of OLD is ended, or killed at a random moment, and PROGRAM runs the same files on its store to the end. What that
prints has to be what a run on a blank store prints. A finished store of OLD is printed without a change of any file.
Ends with status 1 where it isn't so.
"""
import os
import random
import subprocess
import sys
import tempfile

sys.path.insert(0, os.path.join(os.path.dirname(os.path.dirname(os.path.abspath(__file__))), 'tools'))
import graspan_store  # noqa: E402

GRAPHS = (('inftrees', 'alias'), ('adler32', 'alias'), ('less-search', 'alias'), ('flow-small', 'dataflow'))


def files_of(store):
    """The bytes of each file of a store."""
    content = {}
    for name in sorted(os.listdir(store)):
        with open(os.path.join(store, name), 'rb') as file:
            content[name] = file.read()
    return content


def formats_of(store):
    """How many of the partition files that the manifest names are of each format."""
    counts = {b'GSP1': 0, b'GSP2': 0}
    for part in graspan_store.current(store).parts:
        with open(os.path.join(store, 'g%04d' % part.file), 'rb') as file:
            counts[file.read(4)] += 1
    return counts[b'GSP1'], counts[b'GSP2']


def run(program, store, words, seconds=None):
    """What a run prints, or None where it was killed after so many seconds."""
    process = subprocess.Popen([program, store, 'run'] + words, stdout=subprocess.PIPE, stderr=subprocess.DEVNULL)
    try:
        return process.communicate(timeout=seconds)[0].decode()
    except subprocess.TimeoutExpired:
        process.kill()
        process.communicate()
        return None


def compare(old, program, words, wanted, stops, chance, took):
    """Goes on with one finished store of the old program and some that it was stopped on. How many are mixed."""
    with tempfile.TemporaryDirectory() as folder:
        store = os.path.join(folder, 'store')
        assert run(old, store, words) == wanted, 'the old program prints something else'
        before = files_of(store)
        assert run(program, store, words) == wanted, 'a finished store is printed otherwise'
        assert files_of(store) == before, 'a finished store was written'
    mixed = 0
    for _ in range(stops):
        with tempfile.TemporaryDirectory() as folder:
            store = os.path.join(folder, 'store')
            run(old, store, words, chance.uniform(0, took))
            assert run(program, store, words) == wanted, 'a stopped store is gone on with otherwise'
            mixed += 0 not in formats_of(store)
    return mixed


def main():
    if len(sys.argv) not in (4, 5, 6):
        sys.exit(__doc__)
    old, program, data = (os.path.abspath(word) for word in sys.argv[1:4])
    stops, chance = int((sys.argv[4:] or ['10'])[0]), random.Random(int((sys.argv[5:] or ['7'])[0]))
    for graph, grammar in GRAPHS:
        edges, rules = (os.path.join(data, name) for name in (graph + '.edges', grammar + '.grammar'))
        with open(edges) as file:
            lines = sum(not line.startswith('#') for line in file)
        for limit in (1000000, lines // 4 + 1):
            words = [edges, rules, '--part-edges', str(limit)]
            with tempfile.TemporaryDirectory() as folder:
                start = os.times().elapsed
                wanted = run(program, os.path.join(folder, 'store'), words)
                took = os.times().elapsed - start
            mixed = compare(old, program, words, wanted, stops, chance, took)
            print('%s, %s, limit %d: one finished store and %d stopped ones, %d of them of both formats at the end'
                  % (graph, grammar, limit, stops, mixed), flush=True)


if __name__ == '__main__':
    main()
