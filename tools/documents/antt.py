"""The definitions of specs/ and the contracts of src/, and which definitions each of them names. Used by tools/documents/believed,
tools/documents/definitions and tools/documents/lint_definitions.

A name is followed as the prover follows it: through `use`, `pub use`, `as`, and qualified by its module. A constructor counts
as its data type. A Rust type in a contract counts as what its contracts see: the `Value` of its model, or its public fields."""
import os
import re
from dataclasses import dataclass, field

from gate.built import named

SOURCE = re.compile(r' ?\(((?:own|this project|mathematics|Cedar|cedar-spec|RFC|JSON Lines|Rust|Unicode|clap)\b[^()]*(?:\([^()]*\)[^()]*)*)\)\.?$')
IMPORT = re.compile(r'(?:unfoldable )?(pub )?use ((?:Rattle|Prim)[^ {;]*?)(?:\.\{([^}]*)\}| as (\S+?))?;?$')
NAME = re.compile(r'[^\W\d]')
# Heads of lines: of what is imported, of a set for a tactic, of a mutual block, of a constructor, and of a definition.
IMPORTS = re.compile(r'(?:unfoldable )?(?:pub )?use |(?:pub )?mod ')
RULESET = re.compile(r'(?:pub )?ruleset ')
MUTUAL = re.compile(r'(?:abbrev |unfoldable )*mutual$')
MADE = re.compile(r'(\S+) :(?: |$)')
UNFOLDED = re.compile(r'abbrev |unfoldable ')
TYPED = re.compile(r'(?: [{(].*)? :(?: |$)')
HEAD = re.compile(r'(?:abbrev |unfoldable )*(?:(pub) )?(?:(data|record) )?(\S+)( .*)?$')
WORD = re.compile(r'[^\s(){}\[\],;"]+|"[^"]*"|[(){}\[\],;]')
NOT_NAMES = frozenset('use pub data record mutual abbrev unfoldable let in elim as if then else where unfolding open λ → × ≡ : = | ↦'.split())


def words(text):
    """The words and brackets of a text, without its comments and strings."""
    return [it for line in text.split('\n') for it in WORD.findall(line.split('--')[0].split('//')[0]) if not it.startswith('"')]


@dataclass(eq=False)
class Definition:
    """One name that is defined, in a module of specs/ or proofs/."""
    module: 'Module'
    name: str
    kind: str
    is_public: bool
    line: int
    comment: list
    unit: 'Unit' = None
    text: list = field(default_factory=list)
    constructors: list = field(default_factory=list)

    def place(self):
        return '%s:%d' % (self.module.file, self.line)

    def source(self):
        """The source in the brackets that end its comment."""
        found = SOURCE.search(' '.join(self.comment))
        return found[1] if found else ''

    def says(self):
        """Its comment without the source."""
        text = ' '.join(self.comment)
        found = SOURCE.search(text)
        return text[:found.start()].rstrip() if found else text.rstrip('.')


@dataclass(eq=False)
class Unit:
    """Definitions that are believed together: one, or those of a mutual block."""
    module: 'Module'
    definitions: list = field(default_factory=list)
    is_mutual: bool = False

    def lines(self):
        """Its lines without comments."""
        return sum(len(it.text) for it in self.definitions) + self.is_mutual


@dataclass(eq=False)
class Module:
    """A file of specs/ or proofs/: what it imports, passes on and defines."""
    crate: str
    path: str
    file: str
    comment: list = field(default_factory=list)
    imports: list = field(default_factory=list)
    units: list = field(default_factory=list)
    names: dict = field(default_factory=dict)

    def is_private(self):
        return '.Private' in self.path or not self.path.startswith('specs')


def imported(line):
    """What a line imports: whether it passes it on, the path, the items as pairs of name and local name, and the module's alias."""
    found = IMPORT.match(line)
    if not found:
        return None
    items = None
    if found[3] is not None:
        items = [tuple((it.strip().split(' as ') * 2)[:2]) for it in found[3].split(',') if it.strip()]
    return bool(found[1]), found[2], items, found[4]


def indent(line):
    return len(line) - len(line.lstrip())


def head_of(line, within):
    """The head of a definition, if the line is one; within is the indentation of definitions there."""
    if indent(line) != within:
        return None
    found = HEAD.match(line.strip())
    rest = found[4] or ''
    if found[1] or found[2] or UNFOLDED.match(line.strip()):
        return found
    return found if TYPED.match(rest) and '=' not in rest.split(' : ')[0] else None


def read_module(top, crate, path):
    """A file of definitions or lemmas."""
    module = Module(crate, path.replace('/', '.')[:-len('.antt')], os.path.join('crates', crate, path))
    with open(os.path.join(top, module.file), encoding='utf-8') as text:
        lines = text.read().split('\n')
    comment, unit, is_head = [], None, True
    for number, line in enumerate(lines, 1):
        bare = line.strip()
        if bare.startswith('--'):
            if not bare.startswith('-- ----'):
                comment.append(bare[2:].strip())
            continue
        if is_head and comment:
            module.comment, is_head = comment, False
        if not bare:
            comment = []
            continue
        if IMPORTS.match(bare) and indent(line) == 0:
            is_head, comment = False, []
            if imported(bare):
                module.imports.append(imported(bare))
            continue
        # A set of lemmas or codes for a tactic defines nothing.
        if RULESET.match(line):
            comment, unit = [], None
            continue
        if MUTUAL.match(line):
            unit = Unit(module, is_mutual=True)
            module.units.append(unit)
            continue
        found = head_of(line, 2 if unit and unit.is_mutual and indent(line) else 0)
        if found:
            if not (unit and unit.is_mutual and indent(line)):
                unit = Unit(module)
                module.units.append(unit)
            unit.definitions.append(Definition(module, found[3], found[2] or '', bool(found[1]), number, comment, unit))
            module.names[found[3]] = unit.definitions[-1]
        comment = []
        if not unit or not unit.definitions:
            continue
        last = unit.definitions[-1]
        last.text.append(line)
        made = MADE.match(bare)
        if last.kind == 'data' and made and not found:
            last.constructors.append(made[1])
            module.names.setdefault(made[1], last)
    return module


@dataclass(eq=False)
class Type:
    """A struct, an enum or a trait of src/: its lines, and what its contracts see."""
    crate: str
    file: 'Source'
    name: str
    line: int
    text: list
    has_fields: bool
    value: list = field(default_factory=list)
    view: list = field(default_factory=list)

    def lines(self):
        return self.believed().count('\n') + 1

    def believed(self):
        """Its text as far as it is believed: its model's value, and where its fields are public these and their view; else all."""
        if not self.value:
            return '\n'.join(self.text)
        return '\n'.join((self.text + self.value + self.view) if self.has_fields else self.value)


@dataclass(eq=False)
class Function:
    """A function of src/, with its contract."""
    file: 'Source'
    name: str
    owner: str
    trait: str
    is_public: bool
    line: int
    signature: str = ''
    contract: str = ''

    def place(self):
        return '%s:%d' % (self.file.file, self.line)

    def label(self):
        return '%s::%s' % (self.owner, self.name) if self.owner else self.name


@dataclass(eq=False)
class Source:
    """A file of src/: what it imports, its types, its functions, and the ghost members of its impls."""
    crate: str
    file: str
    text: str
    imports: list = field(default_factory=list)
    uses: list = field(default_factory=list)
    types: list = field(default_factory=list)
    functions: list = field(default_factory=list)
    members: list = field(default_factory=list)


OWNER = re.compile(r'(?:unsafe )?impl(?:<.*?(?<!-)>)? (?:([\w:]+)(?:<.*>)? for )?&?(?:\'\w+ )?(\w+)')
ITEM = re.compile(r'(pub(?:\(crate\))? )?(?:struct|enum|trait|const|static) (\w+)')
FUNCTION = re.compile(r'( *)(pub(?:\(crate\))? )?(?:const |unsafe |extern "C" )*fn (\w+)')
CLAUSE = re.compile(r'\s*(?:requires|ensures|ghost)\b')


def block(lines, at, within):
    """The lines of an item from `at` to its end, which is `}` or `;` at its indentation."""
    closed = re.compile(r'(?: {%d}\S.*;| {%d}\}.*|.*\{.*\})$' % (within, within))
    for end in range(at, len(lines)):
        if closed.match(lines[end]) and (end > at or not lines[end].rstrip().endswith('{')):
            return lines[at:end + 1]
    return lines[at:]


def read_function(source, lines, at, owner, trait):
    """The function whose head is the line `at`."""
    found = FUNCTION.match(lines[at])
    function = Function(source, found[3], owner, trait, found[2] == 'pub ' , at + 1)
    signature, contract, in_contract = [], [], False
    for line in lines[at:]:
        in_contract = in_contract or bool(CLAUSE.match(line))
        if line == found[1] + '{':
            break
        (contract if in_contract else signature).append(line)
        if not in_contract and re.search(r'(?: \{|;)$', line) or in_contract and line.endswith('};'):
            break
        if not in_contract and line.rstrip().endswith('{}'):
            break
        if line == found[1] + '{}':
            break
    function.signature, function.contract = '\n'.join(signature), '\n'.join(contract)
    return function


def read_source(top, crate, path):
    """A file of src/."""
    file = os.path.join('crates', crate, path)
    with open(os.path.join(top, file), encoding='utf-8') as text:
        source = Source(crate, file, text.read())
    source.imports = [imported(it.strip()[len('ghost '):]) for it in re.findall(r'^ *ghost use [^;]*;', source.text, re.M)]
    source.imports = [it for it in source.imports if it]
    source.uses = [re.sub(r'\s+', ' ', it) for it in re.findall(r'^ *((?:pub )?use [^;]*);', source.text, re.M) if 'Rattle' not in it]
    lines = source.text.split('\n')
    owner = trait = ''
    models = {}
    for at, line in enumerate(lines):
        if line.startswith(('impl', 'unsafe impl')):
            found = OWNER.match(line)
            trait, owner = (found[1] or '', found[2]) if found else ('', '')
        elif line.startswith('pub trait') or line.startswith('trait'):
            trait = owner = re.search(r'trait (\w+)', line)[1]
        elif line.startswith('}'):
            owner = trait = ''
        item = ITEM.match(line)
        if item:
            body = [it for it in block(lines, at, 0) if it.strip() and not re.match(r'\s*(?://|#\[)', it)]
            if 'trait ' in line:
                body = [body[0]] + [it for it in body[1:] if re.match(r'\s*ghost (?!use)', it)]
            has_fields = any(re.match(r'\s*pub ', it) for it in body[1:]) or '(pub ' in body[0]
            source.types.append(Type(crate, source, item[2], at + 1, body, has_fields))
        member = re.match(r'    ghost (\w+)(?:: .*)? = ', line)
        if member and owner:
            text = block(lines, at, 4)
            if trait == 'Model':
                models.setdefault(owner, {})[member[1]] = text
            elif trait != owner:
                source.members.append((owner, trait, member[1], at + 1, '\n'.join(text)))
        if FUNCTION.match(line):
            source.functions.append(read_function(source, lines, at, owner, trait))
    for it in source.types:
        it.value = models.get(it.name, {}).get('Value', [])
        it.view = models.get(it.name, {}).get('view', [])
    return source


class House:
    """The repository: all modules, all sources."""

    def __init__(self, top):
        self.top = top
        self.libraries = named(top)
        self.modules, self.sources = {}, {}
        for crate in self.libraries:
            for part, ending, read in (('specs', '.antt', read_module), ('proofs', '.antt', read_module), ('src', '.rt', read_source)):
                for path in sorted(found_files(os.path.join(top, 'crates', crate), part, ending)):
                    it = read(top, crate, path)
                    if part == 'src':
                        self.sources[crate, path] = it
                    else:
                        self.modules[crate, it.path] = it
        self.types = {}
        for source in self.sources.values():
            for it in source.types:
                self.types.setdefault((it.crate, it.name), it)
        self.scopes, self.resolved = {}, {}

    def type_of(self, crate, name, seen=()):
        """The Rust type that a crate has under this name, its own or one that it passes on."""
        if (crate, name) in self.types:
            return self.types[crate, name]
        root = self.sources.get((crate, 'src/lib.rt')) or self.sources.get((crate, 'src/main.rt'))
        for lower, inner in passed_on(root, name) if root else ():
            if lower in self.libraries and lower not in seen:
                return self.type_of(lower, inner, seen + (crate,))
        return None

    def exports(self, source, name, is_function=False):
        """Whether the root of the source's crate has the name, or passes it on, and if it is a function's, that of this source."""
        root = self.sources.get((source.crate, 'src/lib.rt'))
        if source is root:
            return True
        if not root or not passed_on(root, name):
            return False
        return not is_function or self.followed(root, 'src', name) is source

    def followed(self, source, folder, name):
        """The source of the crate in which what a source passes on under this name is defined."""
        for use in source.uses:
            for path, inner in used_paths(use, name) if use.startswith('pub ') else ():
                modules = path[1:] if path[0] == 'crate' else path
                at = '/'.join(['src' if path[0] == 'crate' else folder, *modules])
                target = self.sources.get((source.crate, at + '.rt'))
                if target:
                    return target if any(it.name == inner and not it.owner for it in target.functions) else self.followed(target, at, inner)
        return None

    def module_name(self, module, name, seen=()):
        """What a module of definitions has under this name, its own or passed on."""
        if name in module.names:
            return module.names[name]
        for passes, path, items, _ in module.imports:
            if passes and items:
                for inner, outer in items:
                    if outer == name and path not in seen:
                        return self.at(path, inner, seen + (path,))
        return None

    def at(self, path, name, seen=()):
        """The definition or type under a path and a name."""
        parts = path.split('.')
        if parts[0] != 'Rattle' or len(parts) < 3 or parts[1] not in self.libraries:
            return None
        crate, rest = parts[1], parts[2:]
        if rest[:2] == ['specs', 'declared'] or rest[:2] == ['specs', 'contracts']:
            ty = [it for it in rest[2:] if it[:1].isupper()]
            return self.type_of(crate, ty[0] if ty else name)
        module = self.modules.get((crate, '.'.join(rest)))
        return self.module_name(module, name, seen) if module else None

    def scope(self, part):
        """What the imports of a module or source bring in: items by local name, modules by alias."""
        if part not in self.scopes:
            items, aliases = {}, {}
            for _, path, names, alias in part.imports:
                if names is not None:
                    for inner, outer in names:
                        items.setdefault(outer, (path, inner))
                else:
                    aliases[alias or path.split('.')[-1]] = path
            self.scopes[part] = items, aliases
        return self.scopes[part]

    def resolve(self, part, word):
        """What a word of a module or source names, if it names a definition or type of this repository."""
        if (part, word) not in self.resolved:
            self.resolved[part, word] = self.found(part, word)
        return self.resolved[part, word]

    def found(self, part, word):
        """The same, looked up."""
        items, aliases = self.scope(part)
        first, _, rest = word.partition('.')
        if word.startswith('Rattle.'):
            return self.at(word.rpartition('.')[0], word.rpartition('.')[2])
        if isinstance(part, Module) and first in part.names:
            return part.names[first]
        if first in items:
            return self.at(*items[first])
        if first in aliases and rest:
            return self.at(aliases[first], rest.split('.')[0])
        if isinstance(part, Module):
            return self.module_name(part, first)
        if re.match(r'[A-Z]\w*$', first):
            return self.rust_name(part, first)
        return None

    def rust_name(self, source, name):
        """The Rust type that a source has under this name."""
        if any(it.name == name for it in source.types):
            return self.types.get((source.crate, name))
        for use in source.uses:
            for crate, inner in used(use, name):
                return self.type_of(source.crate if crate in ('crate', 'super', 'self') else crate, inner)
        return self.types.get((source.crate, name))

    def cited(self, part, text, bound=()):
        """The definitions and types that a text names."""
        found, all_words = [], words(text)
        for at, word in enumerate(all_words):
            if word in NOT_NAMES or word in bound or not NAME.match(word):
                continue
            following = all_words[at + 1] if at + 1 < len(all_words) else ''
            if following == '=' and at and all_words[at - 1] in ('{', ';'):
                continue
            it = self.resolve(part, word.rstrip('.'))
            if it and it not in found:
                found.append(it)
        return found

    def cites(self, it):
        """The definitions and types that a definition or type names."""
        if isinstance(it, Type):
            # The parameters of a generic type are words of their own.
            return self.cited(it.file, re.sub('[<>]', ' ', it.believed()))
        found = []
        for part in clauses(it):
            found += [x for x in self.cited(it.module, part, binders(self, it, part)) if x not in found]
        return found


def clauses(definition):
    """A definition's signature, and each of its clauses."""
    found, start = [[]], re.compile(r'\s{0,2}%s(?: |$)' % re.escape(definition.name))
    for at, line in enumerate(definition.text):
        if at and definition.kind == '' and start.match(line):
            found.append([])
        found[-1].append(line)
    return ['\n'.join(it) for it in found]


def binders(house, definition, text):
    """The names that a text binds itself: those of λ, of brackets with a type, of `let`, and of a clause's patterns."""
    bound = set()
    for names in re.findall(r'λ ([^.]*?)\.(?= |$)', text, re.M):
        bound.update(names.split())
    for names in re.findall(r'[({]([^(){}:]*?) : ', text):
        bound.update(names.split())
    bound.update(re.findall(r'let (\S+)', text))
    first, equals, _ = text.partition(' = ')
    if equals and definition.kind == '' and re.match(r'\s{0,2}%s ' % re.escape(definition.name), text) and ' : ' not in first:
        for word in words(first)[1:]:
            it = house.resolve(definition.module, word)
            is_made = isinstance(it, Type) or isinstance(it, Definition) and word.split('.')[-1] in it.constructors
            if '.' not in word and not is_made:
                bound.add(word)
    return bound - {definition.name}


def found_files(crate, part, ending):
    """The files of a crate's folder, by their paths in the crate."""
    for folder, _, names in os.walk(os.path.join(crate, part)):
        for name in names:
            if name.endswith(ending) and name != 'Lib.antt':
                yield os.path.relpath(os.path.join(folder, name), crate)


def used_paths(use, name):
    """Where a `use` of Rust brings a name from: pairs of the path before the inner name, and that name."""
    found = re.match(r'(?:pub )?use ([\w:]+?)(?:::\{(.*)\})?(?: as (\w+))?$', use)
    if not found:
        return []
    path = found[1].split('::')
    if found[2] is None:
        return [(path[:-1] or path, path[-1])] if (found[3] or path[-1]) == name else []
    pairs = [(it.strip().split(' as ') * 2)[:2] for it in found[2].split(',') if it.strip()]
    return [(path + inner.split('::')[:-1], inner.split('::')[-1]) for inner, outer in pairs if outer.split('::')[-1] == name]


def used(use, name):
    """Where a `use` of Rust brings a name from: pairs of crate and inner name."""
    return [(path[0], inner) for path, inner in used_paths(use, name)]


def passed_on(source, name):
    """Where a root file passes a name on from."""
    return [it for use in source.uses if use.startswith('pub ') for it in used(use, name)]
