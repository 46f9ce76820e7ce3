#!/usr/bin/env python3
"""Kills runs of the program by a signal at random moments, and resumes each.

    python3 bench/kills.py PROGRAM DATA [KILLS [SEED]]

DATA is the folder of the graphs and grammars. A run of less-search with four partitions, in a folder of the system
(below TMPDIR), is killed at a random moment of the time that the last whole run took, and resumed there. So it goes on
until one ends by itself; then another begins in an empty folder, until there were 200 kills, or so many as KILLS says.

Each run that ends has to print what a run prints that was never killed. After each kill `parts` is asked, and the store
must not have gone back: what was imported stays so, the round and each partition's count of edges never fall, and what
is finished stays finished. The round stands in the slot of the manifest whose gate is open.
"""
import os, random, shutil, signal, subprocess, sys, tempfile, time
from collections import Counter, namedtuple

# What is known of a store: whether it was imported, and then its round, the bounds and the edges of its partitions, and
# whether it is finished.
Seen = namedtuple("Seen", "imported round bounds edges finished")
NOTHING = Seen(False, 0, [], [], False)


def wrong(text):
    sys.exit("kills: " + text)


def round_of(store):
    rounds = []
    for slot in filter(os.path.exists, (os.path.join(store, name) for name in ("g0000", "g0001"))):
        with open(slot, "rb") as file:
            head = file.read(14)
        if head[:1] == b"\x01":
            rounds.append(int.from_bytes(head[6:14], "little"))
    return max(rounds)


def look(program, store):
    asked = subprocess.run([program, store, "parts"], stdout=subprocess.PIPE, stderr=subprocess.PIPE, text=True)
    if asked.returncode == 9:
        return NOTHING
    if asked.returncode != 0:
        wrong("parts ended with status %d: %s%s" % (asked.returncode, asked.stdout, asked.stderr))
    lines = [line.split() for line in asked.stdout.splitlines()]
    parts = [[int(word) for word in line[1:]] for line in lines if line[0] == "part"]
    bounds, edges = [part[:3] for part in parts], [part[3] for part in parts]
    return Seen(True, round_of(store), bounds, edges, lines[-1] == ["finished"])


def goes_on(before, after):
    if not before.imported:
        return True
    return (after.imported and after.bounds == before.bounds and after.round >= before.round
            and all(new >= old for old, new in zip(before.edges, after.edges)) and after.finished >= before.finished)


class Killer:
    def __init__(self, program, data, folder, seed):
        self.program, self.folder, self.pick = program, folder, random.Random(seed)
        files = [os.path.join(data, name) for name in ("less-search.edges", "alias.grammar")]
        self.words = ["run"] + files + ["--part-edges", "491"]
        begin = time.monotonic()
        self.whole = self.run(os.path.join(folder, "whole"), None)
        # how long the last run took that was never killed
        self.seconds = time.monotonic() - begin
        if self.whole.count("part ") != 4:
            wrong("a whole run printed other than four partitions: " + self.whole)

    # What a run prints that ends by itself, and None where it was killed after so many seconds.
    def run(self, store, seconds):
        with open(os.path.join(self.folder, "out"), "w+") as out:
            run = subprocess.Popen([self.program, store] + self.words, stdout=out, stderr=subprocess.PIPE, text=True)
            try:
                said = run.communicate(timeout=seconds)[1]
            except subprocess.TimeoutExpired:
                run.send_signal(signal.SIGKILL)
                said = run.communicate()[1]
            if run.returncode == -signal.SIGKILL:
                return None
            if run.returncode != 0:
                wrong("a run ended with status %d: %s" % (run.returncode, said))
            out.seek(0)
            return out.read()

    # Kills and resumes a run in an empty folder until it ends, at most so often. What was seen after each kill.
    def life(self, most):
        store = os.path.join(self.folder, "killed")
        shutil.rmtree(store, ignore_errors=True)
        seen = [NOTHING]
        begin = time.monotonic()
        while True:
            out = self.run(store, self.pick.uniform(0, self.seconds) if len(seen) <= most else None)
            if out is not None:
                if out != self.whole:
                    wrong("after %d kills a run printed other than a whole one" % (len(seen) - 1))
                if len(seen) == 1:
                    self.seconds = time.monotonic() - begin
                return seen[1:]
            seen.append(look(self.program, store))
            if not goes_on(seen[-2], seen[-1]):
                wrong("the store went back from %s to %s" % seen[-2:])


def state(seen):
    return "finished" if seen.finished else "closing" if seen.imported else "not imported"


def main():
    program, data = os.path.abspath(sys.argv[1]), sys.argv[2]
    kills = int(sys.argv[3]) if len(sys.argv) > 3 else 200
    seed = int(sys.argv[4]) if len(sys.argv) > 4 else random.randrange(1 << 32)
    print("seed %d" % seed, flush=True)
    folder = tempfile.mkdtemp()
    try:
        killer = Killer(program, data, folder, seed)
        print("a whole run takes %.2f s" % killer.seconds, flush=True)
        states, rounds, done, runs = Counter(), set(), 0, 0
        while done < kills:
            seen = killer.life(kills - done)
            done, runs = done + len(seen), runs + 1
            states.update(state(one) for one in seen)
            rounds.update(one.round for one in seen if one.imported)
            met = [one.round for one in seen]
            print("%d kills, %d runs ended: the same output; rounds %s" % (done, runs, met), flush=True)
        kinds = ", ".join("%d %s" % (number, kind) for kind, number in states.most_common())
        print("%d kills, at %d rounds: %s" % (done, len(rounds), kinds))
    finally:
        shutil.rmtree(folder, ignore_errors=True)


if __name__ == "__main__":
    main()
