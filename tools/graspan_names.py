#!/usr/bin/env python3
"""Puts names to the numbers of an edge file whose comment lines '# K NAME' name its vertices.

  graspan STORE query LABEL U | graspan_names.py EDGES     'answer U V' lines, with names in place of the numbers
  graspan_names.py EDGES --find TEXT                       'K NAME' of each vertex whose name is TEXT, or else has it

Lines of other kinds, and numbers without a name, pass through as they are.
"""
import argparse
import os
import sys


def vertex(word):
    """The number that a word is, or None; numbers of vertices have at most eight digits."""
    return int(word) if word.isascii() and word.isdigit() and len(word) <= 8 else None


def names_in(lines):
    """The name of each vertex that lines of an edge file name."""
    names = {}
    for line in lines:
        words = line.rstrip('\r\n').split(None, 2)
        if len(words) == 3 and words[0] == '#' and vertex(words[1]) is not None:
            names[vertex(words[1])] = words[2]
    return names


def names_of(path):
    with open(path, encoding='utf-8', errors='surrogateescape') as file:
        return names_in(file)


def rewritten(line, names):
    """An answer with names; any other line as it is."""
    words = line.split()
    if len(words) != 3 or words[0] != 'answer' or None in map(vertex, words[1:]):
        return line
    source, destination = (names.get(vertex(word), word) for word in words[1:])
    return 'answer %s  ->  %s\n' % (source, destination)


def found(names, text):
    """The vertices with exactly this name, or where there is none those whose name has it."""
    exact = [number for number in names if names[number] == text]
    return exact or [number for number in names if text in names[number]]


def find(names, text, path):
    numbers = found(names, text)
    if not numbers:
        sys.exit('graspan_names.py: no vertex of %s has %r in its name' % (path, text))
    for number in sorted(numbers):
        print('%d %s' % (number, names[number]))


def main(words):
    parser = argparse.ArgumentParser(description=__doc__, formatter_class=argparse.RawDescriptionHelpFormatter)
    parser.add_argument('edges', metavar='EDGES')
    parser.add_argument('--find', metavar='TEXT')
    given = parser.parse_args(words)
    for stream in (sys.stdin, sys.stdout):
        stream.reconfigure(encoding='utf-8', errors='surrogateescape')
    try:
        names = names_of(given.edges)
        if not names:
            sys.exit("graspan_names.py: %s names no vertex: it has no line '# K NAME'" % given.edges)
        if given.find is not None:
            find(names, given.find, given.edges)
        else:
            for line in sys.stdin:
                sys.stdout.write(rewritten(line, names))
        sys.stdout.flush()
    except BrokenPipeError:
        os.dup2(os.open(os.devnull, os.O_WRONLY), sys.stdout.fileno())
    except OSError as fault:
        sys.exit('graspan_names.py: %s: %s' % (fault.filename, fault.strerror))


if __name__ == '__main__':
    main(sys.argv[1:])
