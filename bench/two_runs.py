#!/usr/bin/env python3
"""Starts two runs at once on one folder: one is refused, and the other ends with the right counts.

    python3 bench/two_runs.py PROGRAM DATA [HOW_OFTEN]

DATA is the folder of the graphs and grammars. The one that is refused ends with status 5 and names the other's process;
what the other prints is what a run prints that is alone. `parts` beside them is not refused.
"""
import os, shutil, subprocess, sys, tempfile


def start(program, store, words):
    return subprocess.Popen([program, store] + words, stdout=subprocess.PIPE, stderr=subprocess.PIPE, text=True)


def end(run):
    out, said = run.communicate()
    return run.returncode, out, said


def wrong(text):
    sys.exit("two_runs: " + text)


def refusal(refused, other, said):
    if "process %d runs here" % other in said:
        return "named the other"
    if "another process runs here" in said:
        return "did not name the other: this system's list of locks does not show it"
    wrong("process %d was refused, and said: %s" % (refused, said))


def pair(program, folder, words, alone):
    store = os.path.join(folder, "pair")
    shutil.rmtree(store, ignore_errors=True)
    runs = [start(program, store, words) for _ in range(2)]
    status = subprocess.run([program, store, "parts"], stdout=subprocess.DEVNULL, stderr=subprocess.DEVNULL).returncode
    if status == 5:
        wrong("parts was refused beside the runs")
    done = [end(run) for run in runs]
    if sorted(status for status, _, _ in done) != [0, 5]:
        wrong("the two ended with the statuses %s" % [status for status, _, _ in done])
    last = 0 if done[0][0] == 5 else 1
    if done[last][1] != "fault disk\n":
        wrong("the one that was refused printed %r" % done[last][1])
    if done[1 - last][1] != alone:
        wrong("the other printed something else than a run that is alone")
    return refusal(runs[last].pid, runs[1 - last].pid, done[last][2])


def main():
    program, data = os.path.abspath(sys.argv[1]), sys.argv[2]
    often = int(sys.argv[3]) if len(sys.argv) > 3 else 10
    words = ["run", os.path.join(data, "less-search.edges"), os.path.join(data, "alias.grammar"), "--part-edges", "491"]
    folder = tempfile.mkdtemp()
    try:
        status, alone, said = end(start(program, os.path.join(folder, "alone"), words))
        if status != 0:
            wrong("a run that is alone ended with status %d: %s" % (status, said))
        for number in range(1, often + 1):
            how = pair(program, folder, words, alone)
            print("pair %d: one was refused and %s; the other is right" % (number, how), flush=True)
        status, again, said = end(start(program, os.path.join(folder, "pair"), words))
        if (status, again) != (0, alone):
            wrong("a run after both ended with status %d: %s" % (status, said))
        print("a run after both: the same output")
    finally:
        shutil.rmtree(folder, ignore_errors=True)


if __name__ == "__main__":
    main()
