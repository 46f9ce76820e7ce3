"""Pictures of a store of graspan, as text: the matrix of its partitions, and the answers around a vertex."""
import math

CLOSED, LEFT = '#1f78b4', '#d95f02'


def square(x, y, cell, share, color, title):
    """A cell of the matrix: its frame, and in it a square whose area is the share."""
    side = (cell - 2) * math.sqrt(share)
    place = (x + (cell - side) / 2, y + (cell - side) / 2, side, side)
    frame = '<rect x="%d" y="%d" width="%d" height="%d" fill="none" stroke="#ddd"/>' % (x, y, cell, cell)
    inner = '<rect x="%.1f" y="%.1f" width="%.1f" height="%.1f"' % place
    return [frame, '%s fill="%s"><title>%s</title></rect>' % (inner, color, title)]


def heading(manifest):
    pairs, left = len(manifest.parts) ** 2, len(manifest.work())
    state = '%d of %d pairs have work left (orange)' % (left, pairs) if left else 'closed'
    edges = sum(map(sum, manifest.counts))
    return '%d vertices, %d edges in %d partitions, round %d: %s' % (
        manifest.vertices, edges, len(manifest.parts), manifest.round, state)


def row_text(part, row):
    return '%d: vertices %d to %d, %d edges, newest birth %d' % (
        part.number, part.lo, part.hi - 1, sum(row), part.newest)


def svg(manifest):
    """The partitions as a matrix: edges from i to j as area, pairs with work left in another colour."""
    size, left, top = len(manifest.parts), 340, 60
    cell = max(12, min(48, 900 // max(1, size)))
    most = max([count for row in manifest.counts for count in row] + [1])
    shapes = []
    for part, row in zip(manifest.parts, manifest.counts):
        i, y = part.number, top + part.number * cell
        shapes.append('<text x="%d" y="%.1f" text-anchor="end">%s</text>' % (
            left - 8, y + cell / 2 + 4, row_text(part, row)))
        shapes.append('<text x="%.1f" y="%d" text-anchor="middle">%d</text>' % (left + (i + .5) * cell, top - 6, i))
        for j, count in enumerate(row):
            color = LEFT if manifest.has_work(i, j) else CLOSED
            title = '%d edges from %d to %d' % (count, i, j)
            shapes += square(left + j * cell, y, cell, count / most, color, title)
    width, height = max(left + size * cell, 640) + 20, top + size * cell + 20
    return '\n'.join([
        '<svg xmlns="http://www.w3.org/2000/svg" viewBox="0 0 %d %d" font-family="sans-serif" font-size="11">' % (
            width, height),
        '<rect width="%d" height="%d" fill="#fff"/>' % (width, height),
        '<text x="10" y="20" font-size="13">%s</text>' % heading(manifest),
        '<text x="10" y="38">Row: the edges leave it. Column: they enter it. Area: how many.</text>',
    ] + shapes + ['</svg>', ''])


def quoted(text):
    return '"%s"' % text.replace('\\', '\\\\').replace('"', '\\"')


def dot(label, centre, arrows, names):
    """The answers of a label around a vertex, for Graphviz. A vertex without a name stands as its number."""
    lines = ['digraph answers {', '  rankdir=LR; node [shape=box fontname="sans-serif"];']
    for vertex in sorted({centre}.union(*arrows)):
        style = ' style=bold' if vertex == centre else ''
        lines.append('  %d [label=%s%s];' % (vertex, quoted(names.get(vertex, str(vertex))), style))
    lines += ['  %d -> %d [label=%s];' % (source, destination, quoted(label)) for source, destination in arrows]
    return '\n'.join(lines + ['}', ''])


def write(path, text):
    with open(path, 'w', encoding='utf-8') as out:
        out.write(text)


def write_svg(_, manifest, path):
    write(path, svg(manifest))
