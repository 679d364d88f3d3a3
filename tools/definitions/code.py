"""What a file of `src/` holds that definitions speak of: types with their views, traits, constants, and contracts."""

import re

from .specs import NAME, USED, Definition, Scope, said_above

ITEM = re.compile(rf'(?:pub(?:\(\w+\))? )?(const fn|const|static|struct|enum|trait|type|fn) ({NAME})')
VIEWED = re.compile(rf'impl(?:<.*>)? Model for ({NAME})')


def bare(line):
    """The line without a comment at its end and without what stands in quotes."""
    return re.sub(r'//.*', '', re.sub(r'"[^"]*"', '""', line)).rstrip()


def split_at_commas(text):
    """The parts of a text between the commas that no brace encloses."""
    depth, parts = 0, ['']
    for mark in text:
        depth += (mark == '{') - (mark == '}')
        if mark == ',' and depth == 0:
            parts.append('')
        else:
            parts[-1] += mark
    return [it.strip() for it in parts if it.strip()]


def paths_of(text, before=()):
    """The names that a `use` of the code makes known, each with its path."""
    for it in split_at_commas(text):
        head, brace, rest = it.partition('{')
        steps = [*before, *filter(None, head.strip().split('::'))]
        if brace:
            yield from paths_of(rest.rstrip()[:-1], steps)
        else:
            written, _, known = steps[-1].partition(' as ')
            yield known or written, (*steps[:-1], written)


def blocks_of(lines):
    """The blocks of lines at the margin: each goes on while a bracket is open, and ends with `;`, `}` or `]`."""
    block, depth = [], 0
    for number, line in lines:
        if block or line:
            block.append((number, line))
            depth += len(re.findall(r'[{[(]', line)) - len(re.findall(r'[}\])]', line))
        if block and depth == 0 and line.endswith((';', '}', ']')):
            if not block[0][1].startswith('#'):
                yield block
            block = []
    if block:
        yield block


def contract_of(block):
    """The lines of a function before its body."""
    ends = [at for at, (_, line) in enumerate(block) if line == '{' or line.endswith(' {')]
    return block[:max(ends[0], 1)] if ends else block


class Code:
    """A file of `src/`."""

    def __init__(self, file, text):
        self.file, self.scope, self.used, self.definitions = file, Scope(), {}, {}
        self.text = text.split('\n')
        for block in blocks_of([(number, bare(line)) for number, line in enumerate(self.text, 1)]):
            self.take(block)

    def take(self, block):
        """Takes one block of the file: an import, a definition, or how contracts see a type."""
        first, whole = block[0][1], ' '.join(line.strip() for _, line in block)
        used, item, viewed = re.match(r'(?:pub )?use (.*);', whole), ITEM.match(first), VIEWED.match(first)
        if first.startswith('ghost use '):
            self.scope.take(whole[len('ghost '):])
        elif used:
            self.used.update(paths_of(used[1]))
        elif item:
            self.define(item[2], contract_of(block) if item[1].endswith('fn') else block)
        elif viewed and viewed[1] in self.definitions:
            self.show(self.definitions[viewed[1]], block)

    def define(self, name, block):
        said = said_above(self.text, block[0][0], '///').split('. ')[0]
        made = self.definitions[name] = Definition(self.file, name, Scope(), said)
        made.lines = [number for number, line in block if line]
        made.uses = USED.findall('\n'.join(line for _, line in block))

    def show(self, definition, block):
        """Takes how contracts see a type, which hides what it is made of: its `Value`, and the view that leads there."""
        definition.uses = []
        for part in blocks_of([(number, line[4:]) for number, line in block[1:-1]]):
            if part[0][1].startswith('ghost use '):
                definition.scope.take(part[0][1][len('ghost '):])
            elif part[0][1].startswith(('ghost Value =', 'ghost view =')):
                definition.lines += [number for number, _ in part]
                definition.uses += USED.findall('\n'.join(line for _, line in part))
