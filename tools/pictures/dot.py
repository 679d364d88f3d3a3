"""Writes a picture as Graphviz text."""

from .strands import node_texts, strands_of

HEAD = ['digraph {', '  rankdir=LR;', '  node [shape=ellipse, fontname="Helvetica", fontsize=12];',
        '  edge [color="#808080", fontname="Helvetica", fontsize=11];']


def quoted(text):
    return '"' + text.replace('\\', '\\\\').replace('"', '\\"').replace('\n', '\\n') + '"'


def node_line(node, network, rows):
    texts, is_origin = node_texts(node, network, rows)
    label = '\n'.join([node, *(text for text, _ in texts)])
    return f'  {quoted(node)} [label={quoted(label)}{", peripheries=2" if is_origin else ""}];'


def arc_line(strand):
    how = [f'label={quoted(strand.label)}'] if strand.label else []
    how += ['dir=both'] if strand.is_both else []
    if strand.colour:
        how += [f'color="{strand.colour}"', f'fontcolor="{strand.colour}"', 'penwidth=2.5']
    return f'  {quoted(strand.tail)} -> {quoted(strand.head)} [{", ".join(how)}];'


def drawn(network, rows):
    """The Graphviz text of a network and rows."""
    nodes = [node_line(it, network, rows) for it in network.nodes]
    return '\n'.join([*HEAD, *nodes, *map(arc_line, strands_of(network, rows)), '}'])
