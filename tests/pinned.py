"""Where the definitions that public laws speak of are named: what may fail if one of them is empty or everything.

    python3 tests/pinned.py [ROOT]

This reads names. It doesn't try a wrong definition, so a line is a place to look at and no proof that a wrong one fails.
For each definition it prints the first of these that there is:
- a row that names it: a theorem about small values, in a file of definitions or proofs whose name ends with `Rows`, or any file of
  `naga_oil_faithful_laws`, whose wrong modules are refused there;
- a contract of a function that runs: the tests run it on values from outside;
- a public law by which it holds exactly if something else does, for all values;
- a public law about its values, if it is a function;
- two public laws, one that concludes it and one that presumes it: the first fails if it is empty, the second if it is everything;
- another definition, of which it is part (`through`): nothing names it by itself, which is the weakest.
Prints a line for each definition: its name, its file, and that place. The status is 1 if one of them has none, else 0.
"""
import os
import re
import sys

DECLARED = re.compile(r'^(?:(?:abbrev|unfoldable|opaque)\s+)?(?:pub\s+)?(?:(?:abbrev|unfoldable|record|data|class)\s+)?(?:pub\s+)?([^\s:(){}]+)(?:\s[^:]*)?\s:(?:\s|$)')
BLOCK = re.compile(r'^(?:module _ .* where|(?:(?:abbrev|unfoldable) )?mutual)$')
LONG_HEAD = re.compile(r'^(?:pub )?(?:record|data) ([^\s:(){}]+)$')
USED = re.compile(r'^(?:ghost )?(?:pub )?use Rattle\.(\w+)\.(specs|proofs)\.([\w.]+?)(?:\.\{([^}]*)\})?(?: as (\w+))?;?$', re.M)
WORD = re.compile(r"[^\s(){}\[\],;.:∷→×≡λ=|∸+*\\]+")
LAWS = ('laws.rt', 'copies.rt', 'parsed.rt', 'items.rt', 'functions.rt', 'turns.rt', 'owned.rt', 'shape.rt')


def files(folder, ending):
    out = []
    for at, folders, names in os.walk(folder):
        folders.sort()
        out += [f'{at}/{name}' for name in sorted(names) if name.endswith(ending)]
    return out


def read(path):
    with open(path, encoding='utf-8') as file:
        return file.read()


def bare(text):
    """A text without comments."""
    return '\n'.join(line.split('-- ')[0] if not line.startswith('--') else '' for line in text.split('\n'))


def module_of(path):
    """The crate of a file, and the file as a module: specs.Name or proofs.Name."""
    parts = path[:-5].split('/')
    return parts[1], '.'.join(parts[2:])


def imports(text):
    """What a text imports: names with the modules that have them, and names of modules."""
    names, modules = {}, {}
    for crate, part, module, listed, other in USED.findall(text):
        home = (crate, f'{part}.{module}')
        if listed:
            for each in listed.split(','):
                name, _, new = each.strip().partition(' as ')
                names[new or name] = (home, name)
        elif other:
            modules[other] = home
    return names, modules


def declarations(text):
    """The declarations of a text with their bodies, those of its blocks among them: a declaration ends where the next one begins."""
    found, name, body, is_within = {}, None, [], False
    for line in bare(text).split('\n'):
        if BLOCK.match(line):
            name, is_within = None, True
            continue
        is_within = is_within and line[:1] in ('', ' ')
        head = line[2:] if is_within else line
        begins = head[:1] not in ('', ' ', '-', 'u') or head.startswith(('unfoldable', 'u '))
        match = DECLARED.match(head) or LONG_HEAD.match(head) if begins else None
        if match and not head.startswith('use '):
            name = match[1]
            body = found.setdefault(name, [])
        if name:
            body.append(line)
    return {name: '\n'.join(body) for name, body in found.items()}


class Tree:
    def __init__(self):
        self.texts = {path: read(path) for crate in sorted(os.listdir('crates')) for part in ('specs', 'proofs') for path in files(f'crates/{crate}/{part}', '.antt')}
        self.paths = {module_of(path): path for path in self.texts}
        self.own = {path: declarations(text) for path, text in self.texts.items() if '/specs/' in path}
        self.seen = {}

    def names(self, path, text, own):
        """The definitions that a part of a file names."""
        known, modules = self.seen.setdefault(path, imports(self.texts.get(path) or read(path)))
        out = set()
        for found in re.findall(r"[^\s(){}\[\],;]+", text):
            for word in WORD.findall(found):
                if word in known:
                    out.add(known[word])
                elif word in own:
                    out.add((module_of(path), word))
            head, dot, tail = found.partition('.')
            if dot and head in modules:
                out.add((modules[head], WORD.findall(tail)[0] if WORD.findall(tail) else tail))
        return {(home, name) for home, name in out if self.path(home) and name in self.own[self.path(home)]}

    def path(self, home):
        path = self.paths.get(home)
        return path if path in self.own else None


def split(statement):
    """The premises of a statement, and what it concludes, which stands after its last arrow."""
    depth = last = 0
    for at, each in enumerate(statement):
        depth += (each in '([{') - (each in ')]}')
        if each == '→' and not depth:
            last = at
    return statement[:last], statement[last:]


def statements(body):
    """The statements of a law: each field of a record, or what stands after the equals sign."""
    first, _, rest = body.partition('\n')
    if 'record' in first.split():
        return re.split(r'\n\s+pub \w+ : ', '\n' + rest)[1:]
    return [body.partition('\n')[2].partition(' =')[2] or body.partition(' =')[2]]


def roots_and_contracts(parts):
    """The definitions that stand in public laws, and those that stand in the contracts of functions that run, with their files."""
    roots, contracts = set(), {}
    for crate in sorted(os.listdir('crates')):
        for path in files(f'crates/{crate}/src', '.rt'):
            base = os.path.basename(path)
            is_lawful = base == 'laws.rt' or crate.endswith('_laws') and base in LAWS
            for home, name in imports(read(path))[0].values():
                if (home, name) in parts:
                    if is_lawful or crate == 'naga_oil' and base in ('composer.rt', 'command.rt'):
                        roots.add((home, name))
                    if not is_lawful and not crate.endswith('_laws'):
                        contracts.setdefault((home, name), path)
    return roots, contracts


def closed(some, parts):
    """These definitions and all that they are made of."""
    all_of, left = set(some), list(some)
    while left:
        for each in parts.get(left.pop(), set()) - all_of:
            all_of.add(each)
            left.append(each)
    return all_of


def rows_of(tree):
    """The definitions that rows name, with the file of the first row."""
    pins = {}
    for path, text in tree.texts.items():
        if os.path.basename(path)[:-5].endswith('Rows') or path.startswith('crates/naga_oil_faithful_laws/'):
            for each in tree.names(path, bare(re.sub(USED, '', text)), declarations(text)):
                pins.setdefault(each, path)
    return pins


def equal_by_laws(tree, parts):
    """The definitions that hold exactly if something else does, by a clause of a public law, with the law's file."""
    found = {}
    for crate in sorted(os.listdir('crates')):
        for path in files(f'crates/{crate}/src', 'laws.rt'):
            for clause in read(path).split('ensures')[1:]:
                named = {it for it in tree.names(path, clause, {}) if it in parts}
                if any('↔' in text for text in [clause, *(tree.own[tree.path(home)][name] for home, name in named)]):
                    for each in named:
                        found.setdefault(each, path)
    return found


def clauses(text):
    """The statements of the clauses of a file: those that are required, and those that are ensured."""
    found = {'requires': [], 'ensures': []}
    for word, statement in re.findall(r'^ +(requires|ensures)\b[^{\n]*\{(.*?)\}\n(?= +(?:requires|ensures)\b|\{)', text, re.M | re.S):
        found[word].append(statement)
    return found


def laws_of(tree, spoken):
    """The laws that conclude each definition, and those that presume it: definitions whose names end with `Law`, and clauses of public laws."""
    concluded, presumed = {}, {}

    def look(law, path, before, after, own):
        for found, text in ((presumed, before), (concluded, after)):
            for it in tree.names(path, text, own):
                found.setdefault(it, law)

    for home, law in sorted(it for it in spoken if it[1].endswith('Law')):
        path = tree.path(home)
        for each in statements(tree.own[path][law]):
            look(law, path, *split(each), tree.own[path])
    for crate in sorted(os.listdir('crates')):
        for path in files(f'crates/{crate}/src', 'laws.rt'):
            found = clauses(read(path))
            for each in found['requires']:
                look(path.removeprefix('crates/'), path, each, '', {})
            for each in found['ensures']:
                look(path.removeprefix('crates/'), path, *split(each), {})
    return concluded, presumed


def main():
    if len(sys.argv) > 1:
        os.chdir(sys.argv[1])
    tree = Tree()
    parts = {(module_of(path), name): tree.names(path, body, own) - {(module_of(path), name)} for path, own in tree.own.items() for name, body in own.items()}
    roots, contracts = roots_and_contracts(parts)
    spoken, pins = closed(roots, parts), rows_of(tree)
    concluded, presumed = laws_of(tree, spoken)
    short = lambda it: it.removeprefix('crates/').replace('/specs/', '/').removesuffix('.antt')
    told = {each: short(path) for each, path in pins.items()}
    for each, path in contracts.items():
        told.setdefault(each, f'contract {path.removeprefix("crates/")}')
    for each, path in equal_by_laws(tree, parts).items():
        told.setdefault(each, f'equal by {path.removeprefix("crates/")}')
    for each, law in concluded.items():
        if each[1][0].islower():
            told.setdefault(each, f'a function in {law}')
        if each in presumed:
            told.setdefault(each, f'concluded by {concluded[each]}, presumed by {presumed[each]}')
    left = list(told)
    while left:
        each = left.pop(0)
        for part in sorted(parts.get(each, ())):
            if part not in told:
                told[part] = f'through {each[1]}'
                left.append(part)
    lacking = 0
    for each in sorted(it for it in spoken if not it[0][1].endswith('Rows') and not it[1].endswith('Law')):
        lacking += each not in told
        print(f'{each[1]} | {short(tree.path(each[0]))} | {told.get(each, "NOTHING")}')
    through = sum(told.get(it, '').startswith('through') for it in spoken)
    print(f'{len(spoken)} definitions and laws; {through} are named only through others, {lacking} nowhere')
    return 1 if lacking else 0


if __name__ == '__main__':
    sys.exit(main())
