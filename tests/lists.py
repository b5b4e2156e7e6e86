"""Compares the lists of docs/ and crates.txt with the tree. `lists.sh` runs it.

    python3 tests/lists.py [ROOT]

Prints each place where a list and the tree differ. The status is 1 if there is one, else 0.
"""
import functools
import os
import re
import subprocess
import sys

README_LIMIT = 10000
DEFINITIONS_WIDTH = 160

found = []


def report(text):
    found.append(text)


@functools.lru_cache(maxsize=None)
def read(path):
    with open(path, encoding='utf-8') as file:
        return file.read()


def files(folder, ending):
    """The files of a folder with an ending, those of its folders among them."""
    out = []
    for at, folders, names in os.walk(folder):
        folders.sort()
        out += [f'{at}/{name}' for name in sorted(names) if name.endswith(ending)]
    return out


def code(text):
    """What is in backquotes, line by line."""
    return [name for line in text.split('\n') if '```' not in line for name in re.findall(r'`([^`]+)`', line)]


def cells(line):
    """The cells of a row of a table; `\\|` is no border."""
    return [cell.strip() for cell in re.split(r'(?<!\\)\|', line)[1:-1]]


def rows(text):
    """The rows of the tables in a text, without heads and borders."""
    lines = text.split('\n')
    for at, line in enumerate(lines):
        is_border = line.startswith('|--') or line.startswith('| --')
        is_head = at + 1 < len(lines) and lines[at + 1].startswith(('|--', '| --'))
        if line.startswith('|') and not is_border and not is_head:
            yield line


# ---- the tree

def crates():
    return sorted(name for name in os.listdir('crates') if os.path.isdir(f'crates/{name}'))


FUNCTION = re.compile(r'(?m)^[ \t]*(?:pub(?:\([a-z]+\))? )?(?:(?:const|unsafe|extern "C") )*fn (\w+)')
CLAUSE = re.compile(r'\b(requires|ensures)\*?(?:\s+\w+)?\s*$')


def contracts(text):
    """Each function of a text with its `ensures` clauses."""
    text = re.sub(r'(?m)//.*$', '', text)
    for head in FUNCTION.finditer(text):
        at = start = head.end()
        depth, clauses = 0, []
        while at < len(text):
            byte = text[at]
            depth += {'(': 1, '[': 1, ')': -1, ']': -1}.get(byte, 0)
            if depth == 0 and byte == ';':
                break
            if depth == 0 and byte == '{':
                clause = CLAUSE.search(text[start:at])
                if not clause:
                    break
                end, open_braces = at + 1, 1
                while open_braces:
                    open_braces += {'{': 1, '}': -1}.get(text[end], 0)
                    end += 1
                if clause[1] == 'ensures':
                    clauses.append(text[at + 1:end - 1])
                at = start = end
                continue
            at += 1
        yield head[1], '\n'.join(clauses)


USE = re.compile(r'\buse Rattle\.(\w+)\.specs\.(\w+)(?:\.\{([^}]*)\}| as (\w+))')


def imported(text):
    """The names that a text imports from specifications, each with the crates, files and names that it may mean.

    A name that stands for a whole file ends in a dot."""
    scope = {}
    for crate, file, names, alias in USE.findall(text):
        if alias:
            scope.setdefault(alias + '.', set()).add((crate, file, ''))
        for name in names.split(','):
            own, _, other = name.strip().partition(' as ')
            if own:
                scope.setdefault(other or own, set()).add((crate, file, own))
    return scope


def cited(clauses, scope):
    """The definitions that clauses cite, each as a crate, a file and a name."""
    out = set()
    for alias, name in re.findall(r'(?<!\w)(?:(\w+)\.)?([^\W\d]\w*)', clauses):
        out |= scope.get(name, set()) | scope.get(alias, set())
        out |= {(crate, file, name) for crate, file, _ in scope.get(alias + '.', ())}
    return out


TYPED = re.compile(r'( *)(?:(?:abbrev|unfoldable|pub) )*([^\W\d]\w*|◌\S+◌)(?: [({][^:]*:.*?[)}])* :(?: |$)')
TYPE = re.compile(r'( *)(?:pub )?(?:record|data) ([^\W\d]\w*)')


def definitions(text):
    """The names that a specification defines; those within `mutual` and `module` are indented by two."""
    out, in_block = set(), False
    for line in text.split('\n'):
        if line and not line.startswith((' ', '-')):
            in_block = line.split(' ')[-1] == 'mutual' or line.startswith('module ')
        match = TYPED.match(line) or TYPE.match(line)
        if match and (not match[1] or in_block and len(match[1]) == 2):
            out.add(match[2])
    return out


def head(text):
    """The first sentence of the comment that a specification begins with."""
    words = []
    for line in text.split('\n'):
        if not line.startswith('-- '):
            break
        words.append(line[3:])
    return re.split(r'(?<=\.) |\.$', ' '.join(words))[0].rstrip('.')


def begins(sentence, says):
    """Whether these words are a sentence, or its part before a comma, a colon or a semicolon."""
    return sentence == says or sentence.startswith((says + ',', says + ':', says + ';'))


# ---- the documents

def check_modules():
    """The row of a crate in ARCHITECTURE names each of its modules."""
    table = list(rows(read('docs/ARCHITECTURE.md')))
    for crate in crates():
        row = [line for line in table if line.startswith(f'| `{crate}` |')]
        if len(row) != 1:
            report(f'docs/ARCHITECTURE.md has {len(row)} rows of {crate}')
            continue
        for path in files(f'crates/{crate}/src', '.rt'):
            module = os.path.basename(path)[:-3]
            if 'tests' not in path and module not in ('lib', 'main') and module not in code(row[0]):
                report(f'docs/ARCHITECTURE.md does not name the module {module} of {crate}')
    for line in table:
        name = code(cells(line)[0])[:1]
        if name and line.startswith('| `') and re.match(r'naga_oil|yettuvam', name[0]) and name[0] not in crates():
            report(f'docs/ARCHITECTURE.md has a row of {name[0]}, which is no crate')


def check_definitions():
    """DEFINITIONS has a row for each specification: its name, the beginning of its head, and names that it defines."""
    seen, crate = {}, None
    for line in read('docs/DEFINITIONS.md').split('\n'):
        if len(line) > DEFINITIONS_WIDTH:
            report(f'docs/DEFINITIONS.md has a line of {len(line)} characters: {line[:60]}')
        if line.startswith('## '):
            crate = (code(line) + [None])[0]
        if not line.startswith('| `'):
            continue
        file, says, names = cells(line)
        path = f'crates/{crate}/specs/{code(file)[0]}'
        if path in seen:
            report(f'docs/DEFINITIONS.md names {path} twice')
        seen[path] = True
        if not os.path.exists(path):
            report(f'docs/DEFINITIONS.md names {path}, which is not there')
            continue
        text = read(path)
        if not begins(head(text), says.replace('\\|', '|')):
            report(f'docs/DEFINITIONS.md says of {path} another sentence than its head: {head(text)}')
        for name in code(names):
            if name not in definitions(text):
                report(f'docs/DEFINITIONS.md names {name} of {path}, which does not define it')
    for crate in crates():
        for path in files(f'crates/{crate}/specs', '.antt'):
            if os.path.basename(path) != 'Lib.antt' and path not in seen:
                report(f'docs/DEFINITIONS.md does not name {path}')


def place(name, crate):
    """The crate, the file and the name of `FILE::NAME`, where a file of another crate begins with the crate's name."""
    path, _, item = name.rpartition('::')
    first, _, rest = path.partition('/')
    if first in crates() and rest:
        crate, path = first, rest
    return crate, f'crates/{crate}/{"specs" if path.endswith(".antt") else "src"}/{path}', item


def is_there(path, item):
    if not os.path.exists(path):
        return False
    text = read(path)
    if path.endswith('.antt'):
        return item in definitions(text)
    return re.search(rf'(?m)^\s*(?:pub(?:\([a-z]+\))? )?(?:fn|static|const) {item}\b', text) is not None


@functools.lru_cache(maxsize=None)
def citations(path):
    """What the contracts of a file cite: the name of a function, with a crate, a file and a name of a definition."""
    text = read(path)
    return {(name, *definition) for name, clauses in contracts(text) for definition in cited(clauses, imported(text))}


def cites(function, definition, crate):
    """Whether the contract of a function cites a definition."""
    _, path, name = place(function, crate)
    of, file, item = place(definition, crate)
    return (name, of, os.path.basename(file)[:-5], item) in citations(path)


def check_rules():
    """A rule names functions, definitions that their contracts cite, and worked rows, each in its file."""
    crate = None
    for line in read('docs/RULES.md').split('\n'):
        if line.startswith('## '):
            crate = (code(line) + [None])[0]
            if crate not in crates():
                report(f'docs/RULES.md has a heading of {crate}, which is no crate')
                return
        names = [name for name in code(line) if re.search(r'\.(?:rt|antt)::', name)]
        if crate:
            for name in names:
                _, path, item = place(name, crate)
                if not is_there(path, item):
                    report(f'docs/RULES.md names {name} of {crate}, which is not there')
        if not line.startswith('| ') or line.startswith('| rule |'):
            continue
        if len(cells(line)) != 4:
            report(f'docs/RULES.md has a row of {len(cells(line))} cells: {line[:60]}')
            continue
        rule, functions, defined, worked = cells(line)
        for part, cell in (('function', functions), ('definition', defined), ('row', worked)):
            if not code(cell) or any('::' not in name for name in code(cell)):
                report(f'docs/RULES.md names no {part} with its file for: {rule}')
        for name in code(functions):
            if not re.search(r'\.rt::', name):
                report(f'docs/RULES.md gives {name} as a function')
        for name in code(defined.partition('means ')[0]):
            there = [function for function in code(functions) if is_there(*place(function, crate)[1:])]
            if not any(cites(function, name, crate) for function in there):
                report(f'docs/RULES.md says that the contract of {functions} cites {name}, and it does not')


def check_edits():
    """PROMISES names each must-fail edit, and what it names as edits are such."""
    paths = [path for crate in crates() for path in files(f'crates/{crate}/must-fail', '.edit')]
    edits = {os.path.basename(path)[:-5] for path in paths}
    text = read('docs/PROMISES.md')
    for edit in sorted(edits - set(code(text))):
        report(f'docs/PROMISES.md does not name the edit {edit}')
    for line in re.findall(r'(?m)^- Edits: .*(?:\n  .*)*', text):
        for edit in code(line):
            if edit not in edits:
                report(f'docs/PROMISES.md names the edit {edit}, which is not there')


def check_promises():
    """A contract in PROMISES is in a file that is there; what is named after the file is a word of it, or of a
    definition."""
    defined = ' '.join(read(path) for crate in crates() for path in files(f'crates/{crate}/specs', '.antt'))
    words = set(re.findall(r'\w+', defined))
    for lines in re.findall(r'(?m)^- Contract: .*(?:\n  .*)*', read('docs/PROMISES.md')):
        path = None
        for name in code(lines):
            if name.endswith('.rt'):
                path = f'crates/{name}'
                if not os.path.exists(path):
                    report(f'docs/PROMISES.md names {path}, which is not there')
                    path = None
            elif path and re.fullmatch(r'\w+', name) and name not in words | set(re.findall(r'\w+', read(path))):
                report(f'docs/PROMISES.md names {name} of {path}, which is not there')


def check_dependencies():
    """A line of crates.txt names what its crate names, and nothing else but crates whose impls it needs."""
    lines, for_impls = {}, {}
    for line in read('crates.txt').split('\n'):
        line, _, comment = line.partition('#')
        match = re.match(r'^(\w+)(?: staticlib)?:(.*)$', line)
        if match:
            lines[match[1]] = match[2].split()
            for_impls[match[1]] = comment.removeprefix(' for their impls:').split()
    for crate in sorted(set(crates()) ^ set(lines)):
        report(f'crates.txt and crates/ do not both have {crate}')
    for crate in set(crates()) & set(lines):
        text = ''
        for part, ending in (('src', '.rt'), ('specs', '.antt'), ('proofs', '.antt')):
            for path in files(f'crates/{crate}/{part}', ending):
                text += re.sub(r'(?m)^\s*(?://|--).*$', '', read(path))
        named = set(re.findall(r'\bRattle\.(\w+)', text))
        named |= set(re.findall(r'(?<![\w:.])(\w+)::', text))
        named |= set(re.findall(r'\buse (\w+)\b', text))
        for name in lines[crate]:
            if name not in named and name not in for_impls[crate]:
                report(f'crates.txt says that {crate} depends on {name}, which it does not name')
        for name in sorted((named & set(lines)) - set(lines[crate]) - {crate}):
            report(f'crates.txt does not say that {crate} depends on {name}')


CALLS = [
    'naga_oil/src/compose/composer.rt', 'naga_oil/src/compose/command.rt', 'naga_oil/src/compose/error.rt',
    'naga_oil_pre/src/preprocess.rt', 'naga_oil_pre/src/metadata.rt', 'naga_oil_pre/src/directives.rt',
    'naga_oil_derive/src/derive.rt', 'naga_oil_derive/src/derive/', 'naga_oil_redirect/src/redirect.rt',
]
ERRORS = ['naga_oil_conditions/src/fault.rt', 'naga_oil_ir/src/redirect_error.rt']


def check_calls():
    """FROM_NAGA_OIL names each public call of the composer, the preprocessor, the copier and the redirector, and each
    variant of their errors."""
    shown = set(re.findall(r'\w+', ' '.join(code(read('docs/FROM_NAGA_OIL.md')))))
    wanted = set()
    for path in CALLS:
        for file in files(f'crates/{path}', '.rt') if path.endswith('/') else [f'crates/{path}']:
            wanted |= set(re.findall(r'(?m)^ *pub fn ([a-z_]+)', read(file)))
    for path in ERRORS:
        for body in re.findall(r'(?ms)^pub enum .*?^\}', read(f'crates/{path}')):
            wanted |= set(re.findall(r'(?m)^    ([A-Z]\w*)', body))
    for name in sorted(wanted - shown):
        report(f'docs/FROM_NAGA_OIL.md does not name {name}')


def check_code():
    """Code that a document shows is consecutive lines of a file of the tree."""
    texts = [read(path) for crate in crates() for path in files(f'crates/{crate}/src', '.rt')]
    documents = ['README.md', 'CONTRIBUTING.md'] + files('docs', '.md')
    for document in documents:
        for block in re.findall(r'(?ms)^```rust\n(.*?)^```$', read(document)):
            if not any(f'\n{block}' in f'\n{text}' for text in texts):
                first = block.split('\n')[0]
                report(f"{document} shows code that begins with '{first}', which is not there")


def check_readme():
    size = os.path.getsize('README.md')
    if size > README_LIMIT:
        report(f'README.md has {size} bytes, and {README_LIMIT} at most are wanted')


def check_share():
    """The man page and the completions are what the program's help says."""
    if not os.path.exists('share/make.py'):
        return
    made = subprocess.run([sys.executable, '-B', 'share/make.py', '--check'], capture_output=True, text=True)
    for line in made.stdout.splitlines() + made.stderr.splitlines():
        report(line)


def main():
    here = os.path.dirname(os.path.dirname(os.path.abspath(__file__)))
    os.chdir(sys.argv[1] if len(sys.argv) > 1 else here)
    for check in (check_modules, check_definitions, check_rules, check_edits, check_promises, check_dependencies,
                  check_calls, check_code, check_readme, check_share):
        check()
    for line in found:
        print(line)
    print(f'{len(found)} places to mend' if found else 'the lists are complete')
    return 1 if found else 0


sys.exit(main())
