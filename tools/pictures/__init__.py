"""The parts of tools/picture: it reads networks and rows, and writes Graphviz text, or SVG with a layout of its own."""
