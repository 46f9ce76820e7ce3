#!/usr/bin/env python3
"""Reads a store of graspan, from docs/FORMATS.md alone.

  graspan_store.py STORE parts            the lines of 'graspan STORE parts'
  graspan_store.py STORE labels           'label NAME COUNT' for each label
  graspan_store.py STORE dump [LABEL]     'SOURCE DESTINATION LABEL' for each edge, as 'graspan STORE dump'
  graspan_store.py STORE svg OUT.svg      the partitions as a matrix
  graspan_store.py STORE dot LABEL U OUT.dot   the answers of LABEL around vertex U, for Graphviz

It only reads. A store that is damaged, or of a later format, ends it with status 1 and the file and byte.
"""
import os
import struct
import sys
from bisect import bisect_right
from collections import Counter, namedtuple

import graspan_names
import graspan_pictures

Part = namedtuple('Part', 'number lo hi file newest')
FRESH = 1000  # labels are numbered from 0, fresh ones, which nothing prints, from here on


class Refused(Exception):
    """The store can't be read; the text says why."""


class Bytes:
    """The bytes of a file, field by field."""

    def __init__(self, store, number):
        self.path = os.path.join(store, 'g%04d' % number)
        self.at = 0
        try:
            with open(self.path, 'rb') as file:
                self.bytes = file.read()
        except FileNotFoundError:
            self.bytes = b''

    def refuse(self, text, at=None):
        raise Refused('%s is damaged at byte %d: %s' % (self.path, self.at if at is None else at, text))

    def take(self, count):
        if self.at + count > len(self.bytes):
            self.refuse('it ends within a field')
        self.at += count
        return self.bytes[self.at - count:self.at]

    def number(self, count, least=0, most=1 << 64):
        value = int.from_bytes(self.take(count), 'little')
        if not least <= value <= most:
            self.refuse('%d is out of its range' % value, self.at - count)
        return value

    def group(self):
        """A group number: 7 bits in each byte, the least first. All bytes but the last have bit 7 set."""
        at, value = self.at, 0
        for shift in range(0, 70, 7):
            byte = self.take(1)[0]
            value |= (byte & 127) << shift
            if byte < 128 and value < 1 << 64 and (byte or not shift):
                return value
            if byte < 128:
                break
        self.refuse('no number goes on so', at)

    def magic(self, *wanted):
        """Which of these the next four bytes are."""
        found = self.take(4)
        if found not in wanted and found[:3] == wanted[0][:3]:
            raise Refused('%s is of another format, %r; this reads %r' % (self.path, found, wanted))
        if found not in wanted:
            self.refuse('it begins with %r and not with %r' % (found, wanted[-1]), self.at - 4)
        return found


class Manifest:
    """The manifest that is current: which labels and partitions there are, and what is joined."""

    def __init__(self, slot):
        slot.at = 1
        slot.magic(b'GSM1')
        self.generation = slot.number(1, 0, 2)
        self.round = slot.number(8, 1)
        self.vertices = slot.number(4, 0, 1 << 24)
        self.grammar_length, self.edges_length = slot.number(8, 0, 1 << 24), slot.number(8, 0, 1 << 40)
        self.labels = [slot.take(slot.number(1, 1, 255)).decode('latin-1') for _ in range(slot.number(2, 0, FRESH))]
        if len(set(self.labels)) < len(self.labels) or not all('!' <= c <= '~' for c in ''.join(self.labels)):
            slot.refuse('a label is none, or stands twice')
        self.parts, at, lo = [], slot.at, 0
        for number in range(slot.number(2, 0, min(256, self.vertices))):
            hi, file = slot.number(4, lo + 1, self.vertices), slot.number(4, 4, 1023)
            self.parts.append(Part(number, lo, hi, file, slot.number(8, 0, self.round - 1)))
            lo = hi
        if lo != self.vertices or len({part.file for part in self.parts}) < len(self.parts):
            slot.refuse("the partitions don't cover the vertices, or share a file", at)
        widths = [part.hi - part.lo for part in self.parts]
        self.counts = [[slot.number(8, 0, one * other * 63000) for other in widths] for one in widths]
        self.marks = [[slot.number(8, 0, self.round) for _ in widths] for _ in widths]
        if self.round > 1 + sum(map(sum, self.counts)):
            slot.refuse('%d is out of its range' % self.round, 6)

    def has_work(self, i, j):
        """Whether edges lead from i to j, and one of the two has an edge that isn't joined up to their mark."""
        newest = max(self.parts[i].newest, self.parts[j].newest)
        return self.counts[i][j] > 0 and newest >= self.marks[i][j]

    def work(self):
        size = range(len(self.parts))
        return [(i, j) for i in size for j in size if self.has_work(i, j)]


def current(store):
    """The manifest of the current slot: the only open one, or of two the one whose generation follows."""
    slots = [slot for slot in (Bytes(store, 0), Bytes(store, 1)) if len(slot.bytes) >= 2 and slot.bytes[0] == 1]
    if not slots:
        raise Refused('%s holds no store: nothing was imported here, or not to its end' % store)
    manifests = [Manifest(slot) for slot in slots]
    first, last = manifests[0].generation, manifests[-1].generation
    if len(manifests) == 2 and first == last:
        slots[1].refuse('both slots have one generation', 5)
    return manifests[0 if first == (last + 1) % 3 else -1]


def first_row(file):
    """The edges of a row in format 1: label number, destination, birth."""
    return struct.iter_unpack('<HIQ', file.take(14 * file.number(8)))


def second_row(file):
    """The edges of a row in format 2, where labels and destinations are told by what they are more than those before."""
    label = destination = None
    for _ in range(file.group()):
        more, number, birth = file.group(), file.group(), file.group()
        if label is not None and more == 0:
            destination += 1 + number
        else:
            label, destination = (label or 0) + more, number
        yield label, destination, birth


def edges(store, manifest, part):
    """Each edge of a partition: source, label number, destination, birth."""
    file = Bytes(store, part.file)
    row = first_row if file.magic(b'GSP1', b'GSP2') == b'GSP1' else second_row
    if (file.number(4), file.number(4)) != (part.lo, part.hi):
        file.refuse('it is of another interval of vertices', 4)
    starts, counts, newest = [other.lo for other in manifest.parts], [0] * len(manifest.parts), 0
    for source in range(part.lo, part.hi):
        last = None
        for label, destination, birth in row(file):
            if len(manifest.labels) <= label < FRESH or destination >= manifest.vertices or birth >= manifest.round:
                file.refuse('an edge of vertex %d has a label, vertex or birth that there is not' % source)
            if last is not None and (label, destination) <= last:
                file.refuse("the edges of vertex %d don't ascend" % source)
            last, newest = (label, destination), max(newest, birth)
            counts[bisect_right(starts, destination) - 1] += 1
            yield source, label, destination, birth
    if file.at != len(file.bytes):
        file.refuse('bytes stand behind its end')
    if (counts, newest) != (manifest.counts[part.number], part.newest):
        file.refuse('it has other edges than the manifest counts', 0)


def all_edges(store, manifest):
    for part in manifest.parts:
        yield from (edge for edge in edges(store, manifest, part) if edge[1] < FRESH)


def print_parts(store, manifest):
    print('vertices %d' % manifest.vertices)
    for part, row in zip(manifest.parts, manifest.counts):
        print('part %d %d %d %d' % (part.number, part.lo, part.hi, sum(row)))
    print('unfinished %d %d' % manifest.work()[0] if manifest.work() else 'finished')


def print_labels(store, manifest):
    counts = Counter(label for _, label, _, _ in all_edges(store, manifest))
    for number, name in enumerate(manifest.labels):
        print('label %s %d' % (name, counts[number]))


def print_dump(store, manifest, wanted=None):
    number = None if wanted is None else label_number(manifest, wanted)
    for source, label, destination, _ in all_edges(store, manifest):
        if number is None or label == number:
            print('%d %d %s' % (source, destination, manifest.labels[label]))


def label_number(manifest, name):
    if name not in manifest.labels:
        raise Refused('there is no label %s; there are: %s' % (name, ' '.join(manifest.labels)))
    return manifest.labels.index(name)


def write_dot(store, manifest, label, vertex, path):
    number, centre = label_number(manifest, label), int(vertex) if vertex.isdecimal() else manifest.vertices
    if centre >= manifest.vertices:
        raise Refused('there is no vertex %s; there are %d, from 0 on' % (vertex, manifest.vertices))
    arrows = [(s, d) for s, l, d, _ in all_edges(store, manifest) if l == number and centre in (s, d)]
    kept = Bytes(store, 3).bytes[:manifest.edges_length].decode('utf-8', 'replace')
    names = graspan_names.names_in(kept.split('\n'))
    graspan_pictures.write(path, graspan_pictures.dot(label, centre, arrows, names))


# A command: what carries it out, and the least and the greatest number of words behind it.
COMMANDS = {'parts': (print_parts, 0, 0), 'labels': (print_labels, 0, 0), 'dump': (print_dump, 0, 1),
            'svg': (graspan_pictures.write_svg, 1, 1), 'dot': (write_dot, 3, 3)}


def main(words):
    carry_out, least, most = COMMANDS.get(words[1] if len(words) > 1 else '', (None, 1, 0))
    if not least <= len(words) - 2 <= most:
        sys.exit(__doc__.strip())
    try:
        carry_out(words[0], current(words[0]), *words[2:])
        sys.stdout.flush()
    except BrokenPipeError:
        os.dup2(os.open(os.devnull, os.O_WRONLY), sys.stdout.fileno())
    except OSError as fault:
        sys.exit('graspan_store.py: %s: %s' % (fault.filename, fault.strerror))
    except (Refused, ValueError) as fault:
        sys.exit('graspan_store.py: %s' % fault)


if __name__ == '__main__':
    main(sys.argv[1:])
