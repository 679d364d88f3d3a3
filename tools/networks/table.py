"""Reads tables with a header (CSV): a line for each edge, of which two columns are its ends."""

import csv
import io

from .graph import BadInput, Edge, Graph, as_text

# The headers of ends that need no --ends.
ENDS = (('source', 'target'), ('from', 'to'), ('tail', 'head'), ('src', 'dst'))
MARKS = ',;\t'


def mark_of(line):
    """What separates the columns of a header: the mark that stands in it most often."""
    return max(MARKS, key=line.count)


def known_ends(header):
    """The two of these headers that name ends, or None."""
    lower = [it.strip().lower() for it in header]
    return next(((lower.index(a), lower.index(b)) for a, b in ENDS if a in lower and b in lower), None)


def ends_of(header, options):
    """The columns of the ends."""
    if not options.ends:
        found = known_ends(header)
        if found is None:
            raise BadInput(f'the header names no ends (as source and target): --ends A,B says which of '
                           f'its columns they are: {", ".join(header)}', 1)
        return found
    wanted = [it.strip() for it in options.ends.split(',')]
    if len(wanted) != 2 or wanted[0] == wanted[1] or not set(wanted) <= set(header):
        raise BadInput(f'--ends names two columns of the header ({", ".join(header)}), and not {options.ends}', 1)
    return header.index(wanted[0]), header.index(wanted[1])


def rows_of(text):
    """The rows that aren't empty, each with its line."""
    first = next((it for it in text.split('\n') if it.strip()), '')
    rows = csv.reader(io.StringIO(text, newline=''), delimiter=mark_of(first), strict=True, skipinitialspace=True)
    try:
        for row in rows:
            if any(it.strip() for it in row):
                yield rows.line_num, [it.strip() for it in row]
    except csv.Error as error:
        raise BadInput(f'no table: {error}', rows.line_num) from None


def read(source, options):
    """The graph of a table."""
    rows, graph = rows_of(source.text), Graph()
    _, header = next(rows, (0, None))
    if header is None:
        raise BadInput('there is no header in it')
    if len(set(header)) < len(header):
        raise BadInput('two columns have one header', 1)
    ends = ends_of(header, options)
    for number, row in rows:
        if len(row) != len(header):
            raise BadInput(f'the header has {len(header)} columns, and this row {len(row)}', number)
        if not all(row[it] for it in ends):
            raise BadInput('the row has no name for an end', number)
        data = {name: as_text(value) for at, (name, value) in enumerate(zip(header, row)) if value and at not in ends}
        graph.add_edge(Edge(row[ends[0]], row[ends[1]], data, number, options.directed), makes_nodes=True)
    if not graph.edges:
        raise BadInput('there is no edge in it')
    return graph
