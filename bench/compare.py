#!/usr/bin/env python3
"""Compares what the program lists with a closing by the plainest way, over random small graphs and grammars.

    python3 bench/compare.py PROGRAM [HOW_MANY]

Each graph is closed with one partition and with several. The closing here shares no code with the program: it knows
no normal form, and asks for each left side which ends its right side reaches until nothing is added.
"""
import itertools, os, random, shutil, subprocess, sys, tempfile


def closure(vertices, edges, rules):
    reached = set(edges)
    while True:
        more = set()
        for left, right in rules:
            for u in range(vertices):
                ends = {u}
                for label in right:
                    ends = {v for (a, l, v) in reached if l == label and a in ends}
                more |= {(u, left, v) for v in ends}
        if more <= reached:
            return reached
        reached |= more


def sample(seed):
    pick = random.Random(seed)
    labels = ["a", "b", "-a", "S", "T"][:pick.randint(2, 5)]
    top = pick.randint(1, 7)
    edges = [(pick.randrange(top), pick.choice(labels), pick.randrange(top)) for _ in range(pick.randint(0, 10))]
    rules = [(pick.choice(labels), [pick.choice(labels) for _ in range(pick.choice([0, 1, 2, 2, 2, 3, 4]))])
             for _ in range(pick.randint(0, 5))]
    return edges, rules


def said(program, folder, edges, rules, limit):
    with open(os.path.join(folder, "e"), "w") as f:
        f.writelines("%d %d %s\n" % (u, v, l) for (u, l, v) in edges)
    with open(os.path.join(folder, "g"), "w") as f:
        f.writelines(" ".join([left] + right) + "\n" for left, right in rules)
    store = os.path.join(folder, "store%d" % limit)
    subprocess.run([program, store, "run", "e", "g", "--part-edges", str(limit)], cwd=folder, check=True, stdout=subprocess.DEVNULL)
    lines = subprocess.run([program, store, "dump"], cwd=folder, check=True, stdout=subprocess.PIPE, text=True).stdout.splitlines()
    return lines


def order(edges, rules):
    names = [n for left, right in rules for n in [left] + right] + [l for (u, l, v) in edges]
    return {name: i for i, name in enumerate(dict.fromkeys(names))}


def main():
    program = os.path.abspath(sys.argv[1])
    many = int(sys.argv[2]) if len(sys.argv) > 2 else 200
    for seed, limit in itertools.product(range(many), (1, 3, 1000000)):
        edges, rules = sample(seed)
        vertices = max((max(u, v) + 1 for (u, l, v) in edges), default=0)
        number = order(edges, rules)
        want = ["%d %d %s" % (u, v, l) for (u, l, v) in sorted(closure(vertices, edges, rules), key=lambda e: (e[0], number[e[1]], e[2]))]
        folder = tempfile.mkdtemp()
        try:
            got = said(program, folder, edges, rules, limit)
        finally:
            shutil.rmtree(folder)
        if got != want:
            sys.exit("seed %d, limit %d: %s, wanted %s" % (seed, limit, got, want))
    print("%d graphs, each closed with three limits: all the same" % many)


main()
