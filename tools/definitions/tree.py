"""The definitions of the crates below a folder, and which of them the contract of a function reaches."""

import os
import re

from .code import Code
from .specs import Specs, Stated

PATH = re.compile(r'(\w+)\.specs\.(declared\.|contracts\.)?(.*)')


class Tree:
    """The crates below a folder. Each file is read when a name of it is first looked for."""

    def __init__(self, top):
        self.top, self.files = top, {}

    def read(self, file, reader):
        """The file as its reader sees it, or None where there is none."""
        if file not in self.files:
            path = os.path.join(self.top, file)
            self.files[file] = None
            if os.path.isfile(path):
                with open(path, encoding='utf-8') as opened:
                    self.files[file] = reader(file, opened.read())
        return self.files[file]

    def specs(self, crate, rest):
        return self.read(f'crates/{crate}/specs/{rest.replace(".", "/")}.antt', Specs)

    def imported(self, path, name):
        """The definition that an imported name stands for, or None where no crate here has it, as with std's names."""
        found = PATH.match(path)
        if not found:
            return None
        crate, is_code, rest = found.groups()
        if is_code:
            return self.declared(crate, rest, name)
        specs = self.specs(crate, rest)
        if specs is None:
            return None
        own = specs.definitions.get(name) or specs.makers.get(name)
        return own or (self.imported(*specs.scope.handed_on[name]) if name in specs.scope.handed_on else None)

    def declared(self, crate, rest, name):
        """The definition of the code that a name stands for: a constant, a type, or the type of a variant."""
        steps = rest.split('.')
        owner = next((it for it in steps if it[:1].isupper() and not it.startswith('The')), name)
        file = '/'.join(it for it in steps if not it[:1].isupper())
        code = self.read(f'crates/{crate}/src/{file}.rt', Code)
        return code.definitions.get(owner) if code else None

    def makes_data(self, path, name):
        """Whether an imported name makes data: a variant, or what a `data` of definitions has."""
        found = PATH.match(path)
        if not found or found[2]:
            return 'TheVariants' in path
        specs = self.specs(found[1], found[3])
        return specs is not None and name in specs.makers

    def code_of(self, crate):
        """The files of a crate's code."""
        folder = os.path.join(self.top, 'crates', crate, 'src')
        names = sorted(os.listdir(folder)) if os.path.isdir(folder) else []
        return [self.read(f'crates/{crate}/src/{it}', Code) for it in names if it.endswith('.rt')]

    def in_code(self, code, name, seen=()):
        """The definition that a name of the code stands for, or None where no crate here has it."""
        steps = code.used.get(name)
        if name in code.definitions or not steps or (code.file, name) in seen:
            return code.definitions.get(name)
        home = code.file.split('/')[1] if steps[0] in ('crate', 'super', 'self') else steps[0]
        files = self.code_of(home)
        own = [it.definitions[steps[-1]] for it in files if steps[-1] in it.definitions]
        handing = [it for it in files if steps[-1] in it.used and it is not code]
        handed_on = (self.in_code(it, steps[-1], (*seen, (code.file, name))) for it in handing)
        return own[0] if own else next(filter(None, handed_on), None)

    def meant(self, scopes, name, part):
        """The definition that a name stands for by imports: its own, or that of its part where it is an alias."""
        for scope in scopes:
            if name in scope.imported:
                return self.imported(*scope.imported[name])
            if name in scope.aliases and part:
                return self.imported(scope.aliases[name], part)
        return None

    def uses(self, definition):
        """The definitions that one uses, in the order of its text."""
        file, scopes = self.files[definition.file], (definition.scope, self.files[definition.file].scope)
        if not isinstance(definition, Stated):
            return [self.meant(scopes, *it) or self.in_code(file, it[0]) for it in definition.uses]
        found = [definition.around]
        for name, part in file.names_of(definition, self.makes_data):
            found.append(file.definitions.get(name) or file.makers.get(name) or self.meant(scopes, name, part))
        return found

    def reached_from(self, file, name, without=()):
        """The definitions that the contract of a function reaches, or None where there is no such function. What those of
        the names `without` use is not followed from them."""
        code = self.read(file, Code)
        start = code.definitions.get(name) if code else None
        if start is None:
            return None
        found, waiting = {start.key(): start}, [start]
        while waiting:
            user = waiting.pop(0)
            for it in () if user.name in without else self.uses(user):
                if it is not None and it.key() not in found:
                    found[it.key()], it.user = it, user
                    waiting.append(it)
        return sorted((it for it in found.values() if it is not start), key=lambda it: (it.file, it.lines))
