"""What a file of `specs/` defines: names, the lines that each takes, and the names that it uses."""

import re

NAME = r"[^\W\d][\w']*"
# A name that is used, with what follows its dot; not one that follows a dot itself, which is a field.
USED = re.compile(rf"(?<![\w'.])({NAME})(?:\.({NAME}))?")
DECLARED = re.compile(rf"(?:(?:pub|abbrev|unfoldable) )+(?:(record|data) )?({NAME})|(record|data) ({NAME})|({NAME}) : ")
IMPORT = re.compile(r'(pub )?use Rattle\.([\w.]+?)(?:\.\{(.*)\}| as (\w+))$')


class Definition:
    """A name, where it stands, what is said above it, the numbers of its lines, its text's own scope, and its uses."""

    def __init__(self, file, name, scope, said):
        self.file, self.name, self.scope, self.said = file, name, scope, said
        self.lines, self.uses, self.user = [], [], None

    def key(self):
        return self.file, self.name

    def place(self):
        return f'{self.file}:{self.lines[0]}' + (f'-{self.lines[-1]}' if len(self.lines) > 1 else '')


class Scope:
    """What names stand for: the paths and names of imported ones, of those that are handed on, and of aliases."""

    def __init__(self):
        self.imported, self.handed_on, self.aliases = {}, {}, {}

    def take(self, line):
        """Takes an import of definitions, if the line is one."""
        found = IMPORT.match(line.strip().rstrip(';'))
        if not found:
            return
        is_handed_on, path, names, alias = found.groups()
        if alias:
            self.aliases[alias] = path
        for name in filter(None, (it.strip() for it in (names or '').split(','))):
            written, _, known = name.partition(' as ')
            self.imported[known or written] = (path, written)
            if is_handed_on:
                self.handed_on[known or written] = (path, written)


def said_above(lines, number, mark):
    """What the comment lines above that line say, which begin with the mark; attributes may stand between."""
    said = []
    for line in reversed(lines[:number - 1]):
        found = re.match(rf'\s*{mark}\s?(.*)', line)
        if found:
            said.insert(0, found[1])
        elif said or not line.strip().startswith('#'):
            break
    return ' '.join(said).rstrip('.')


def bare(line):
    """The line without a comment at its end and without what stands in quotes."""
    return re.sub(r'(^|\s)--.*', '', re.sub(r'"[^"]*"', '""', line)).rstrip()


def bound_in(text):
    """The names that binders of a text bind: those in brackets before a colon, and those of functions."""
    typed = re.findall(rf'[({{]\s*((?:{NAME} )+):', text)
    taken = [re.sub(r'[({][^)}]*[)}]', ' ', it) for it in re.findall(r'λ ([^.]*)\.', text)]
    return set(re.findall(NAME, ' '.join(typed + taken)))


class Clause:
    """A declaration of a definition, or one of its equations."""

    def __init__(self, text, is_equation):
        self.text, self.is_equation = text, is_equation

    def uses(self, is_variable):
        """The names that it uses; `is_variable` says of a name left of the equals sign whether it is bound there."""
        bound = bound_in(self.text)
        left, *right = re.split(r' =(?:\s|$)', self.text, maxsplit=1)
        if self.is_equation and right:
            bound |= {it for it in re.findall(NAME, re.sub(rf'\.{NAME}', '', left)) if is_variable(it)}
        without_fields = re.sub(rf'([{{;]\s*){NAME} = ', r'\1', self.text)
        return [it for it in USED.findall(without_fields) if it[0] not in bound]


class Stated(Definition):
    """A definition of `specs/`, by its clauses; `around` is the module of parameters that it stands in, or None."""

    def __init__(self, file, name, scope, said, kind, around):
        super().__init__(file, name, scope, said)
        self.kind, self.around, self.clauses, self.fields = kind, around, [], set()


class Specs:
    """A file of `specs/`."""

    def __init__(self, file, text):
        self.file, self.scope, self.definitions, self.makers = file, Scope(), {}, {}
        self.text = text.split('\n')
        self.take([(number, bare(line)) for number, line in enumerate(self.text, 1)], None)

    def take(self, lines, around):
        """Takes the definitions of lines that begin at the margin, inside the module `around`, if there is one."""
        last, at = None, 0
        while at < len(lines):
            number, line = lines[at]
            at += 1
            found = DECLARED.match(line)
            if line.startswith(('use ', 'pub use ', 'pub mod ')):
                while at < len(lines) and '{' in line and '}' not in line:
                    line, at = f'{line} {lines[at][1].strip()}', at + 1
                self.scope.take(line)
            elif line.startswith('module '):
                last, at = None, self.take_module(lines, at - 1)
            elif found and not (last and last.name == found[5]):
                last = self.begin(number, found[2] or found[4] or found[5], found[1] or found[3], around)
                self.go_on(last, number, line, is_first=True)
            elif last and line:
                self.go_on(last, number, line)

    def begin(self, number, name, kind, around):
        said = said_above(self.text, number, '--')
        self.definitions[name] = Stated(self.file, name, self.scope, said, kind, around)
        return self.definitions[name]

    def go_on(self, definition, number, line, is_first=False):
        """Takes one more line of a definition."""
        member = re.match(rf'  (?:pub )?({NAME}) :', line)
        if member and definition.kind == 'data':
            self.makers[member[1]] = definition
        if member and definition.kind == 'record':
            definition.fields.add(member[1])
        if line.startswith(' '):
            definition.clauses[-1].text += '\n' + line
        else:
            definition.clauses.append(Clause(line, not is_first))
        definition.lines.append(number)

    def take_module(self, lines, at):
        """Takes a module of parameters that its definitions share, and answers the place after it."""
        header = self.begin(lines[at][0], f'module at line {lines[at][0]}', 'module', None)
        while not header.lines or not lines[at - 1][1].endswith(' where'):
            self.go_on(header, *lines[at], is_first=True)
            at += 1
        end = at
        while end < len(lines) and not re.match(r'\S', lines[end][1]):
            end += 1
        self.take([(number, line[2:]) for number, line in lines[at:end]], header)
        return end

    def names_of(self, definition, is_maker):
        """The names that a definition uses; `is_maker` says of an imported one whether it makes data."""
        def is_variable(name):
            known = self.scope.imported.get(name)
            return not (name in self.makers or (known and name not in self.definitions and is_maker(*known)))

        uses = [it for clause in definition.clauses for it in clause.uses(is_variable)]
        return [it for it in dict.fromkeys(uses) if it[0] not in definition.fields and it[0] != definition.name]
