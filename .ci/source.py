"""What the gate's scripts see in the tree: its crates, the functions of a .rt file with their contracts, the items of an .antt file, what either names of others,
the tables of a document. It reads lines and braces as `rt fmt` lays them out; it is no compiler."""
import os
import re
from collections import namedtuple

# a function's line, name (a method's with its type's before it, as `Place::next`), whether it is public, its parameters and result, and its clauses: (word, text)
Function = namedtuple('Function', 'line name public signature clauses')
# an item of an .antt file: 'definition', 'law', 'fixity' or 'other'; whether it is public; the names that it brings; its line; the parameters of the section around it; its type;
# its whole text
Item = namedtuple('Item', 'kind public names line section statement text')
# what a file brings in: names as {name here: (module, name there)}, modules as {name here: module}
Imports = namedtuple('Imports', 'names modules')

NAME = r'[^\s(){}.;,@"«»]+'
PATH = re.compile(rf'\.?{NAME}(?:\.{NAME})*')


def read(*path):
    with open(os.path.join(*path), encoding='utf-8') as file:
        return file.read()


def house(top):
    """The crates in the order of the house, each with its section of crates.txt."""
    section = ''
    for line in read(top, 'crates.txt').split('\n'):
        if line.startswith('#'):
            section = line.strip('# ')
        elif ':' in line:
            yield section, line.split(':')[0].strip()


def files(top, crate, part):
    """The files of a crate's part, by their paths from the top: lib.rt and main.rt first, modules in the order of Lib.antt, which itself is none."""
    folder = os.path.join(top, 'crates', crate, part)
    declared = re.findall(r'^(?:pub )?mod (\S+)', read(folder, 'Lib.antt'), re.M) if os.path.exists(os.path.join(folder, 'Lib.antt')) else []
    order = ['lib.rt', 'main.rt'] + [name + '.antt' for name in declared]
    found = [os.path.relpath(os.path.join(where, name), folder) for where, _, names in os.walk(folder) for name in names if name.endswith(('.rt', '.antt')) and name != 'Lib.antt']
    found.sort(key=lambda name: (order.index(name) if name in order else len(order), name))
    return [f'crates/{crate}/{part}/{name}' for name in found]


def module(path):
    """A file's module, as `module_of` names it: h261_words.specs.Tables."""
    return path[len('crates/'):].rsplit('.', 1)[0].replace('/', '.')


def module_of(written):
    """The module that a `use` line writes, without what each path of a crate begins with."""
    return re.sub(r'^Rattle\.', '', written)


# ---- documents

def ticked(text):
    """What a document has between backticks."""
    return re.findall(r'`([^`]+)`', text)


def rows(text):
    """Each row of each table of a document, by the table's heads."""
    heads = None
    for line in text.split('\n'):
        cells = [cell.strip() for cell in line.strip('|').split('|')] if line.startswith('|') else None
        if cells is None:
            heads = None
        elif heads is None:
            heads = cells
        elif not line.startswith('|---'):
            yield dict(zip(heads, cells))


# ---- Rattle

def plain(text):
    """Without comments."""
    return re.sub(r'//.*', '', text)


def functions(text):
    text = plain(text)
    impls = [(found.start(), found.end(), found[1]) for found in re.finditer(r'^impl(?:<[^\n{]*?>)? (?:[^\n{]+ for )?(\w+)[^\n]*\n(?:.*\n)*?\}$', text, re.M)]
    for found in re.finditer(r'^[ \t]*(?:#\[(?:unsafe\()?no_mangle\)?\]\s*)?(pub\s+)?(?:extern\s+"C"\s+)?fn\s+(\w+)', text, re.M):
        end = re.compile(r'\s*(?:\b(?:requires|ensures)\b|\{)').search(text, found.end())
        at = end.start() if end else len(text)
        signature, clauses = text[found.end():at], []
        while clause := re.compile(r'\s*(requires|ensures)\b[^{]*').match(text, at):
            at = closed(text, clause.end())
            clauses.append((clause[1], text[clause.end():at]))
        of = next((name + '::' for start, end, name in impls if start < found.start() < end), '')
        yield Function(text.count('\n', 0, found.start(2)) + 1, of + found[2], bool(found[1]), signature, clauses)


def closed(text, at):
    """Where the brace at this place is closed."""
    depth = 0
    for place in range(at, len(text)):
        depth += {'{': 1, '}': -1}.get(text[place], 0)
        if depth == 0:
            return place + 1
    return len(text)


def types(text):
    """The structs, enums, constants (without their values) and names for types, each with its text."""
    for found in re.finditer(r'^(?:pub )?(?:const (\w+)[^=]*|type (\w+)[^;]*|(?:enum|struct) (\w+)(?:[^{;]*;|(?:.|\n)*?^\}))', plain(text), re.M):
        yield found[1] or found[2] or found[3], found[0]


def rust_names(text, crate):
    """The names that a .rt file brings in by its `use` lines, and its own types: {name here: (crate, name there)}."""
    names = {name: (crate, name) for name, _ in types(text)}
    for path, braces, alias in re.findall(r'^(?:pub )?use ([\w:]+?)(?:::\{([^}]*)\})?(?: as (\w+))?;', text, re.M):
        for entry in filter(None, (part.strip() for part in braces.split(','))) if braces else [f'{path} as {alias}' if alias else path]:
            there, _, here = entry.partition(' as ')
            full = f'{path}::{there}' if braces else there
            first, last = full.split('::')[0], full.split('::')[-1]
            names[here.strip() or last] = (crate if first in ('crate', 'super', 'self') else first, last)
    return names


# ---- antt

def bare(text):
    """Without comments and quoted texts, line for line."""
    return re.sub(r'"(?:\\.|[^"\\\n])*"|\{-(?:.|\n)*?-\}|(?<![^\s(){};,])--.*', lambda found: '\n' * found[0].count('\n'), text)


SIGNATURE = re.compile(rf'((?:unfoldable |abbrev |opaque |pub |axiom )*)({NAME})(?: \{{[^}}:]*\}})? :(?:\s|$)')
DATA = re.compile(r'(?:pub )?(data|record) (\S+)')


def items(text):
    """The items of an .antt file in their order, those of sections among them."""
    return list(items_of(bare(text).split('\n'), 1, ''))


def items_of(lines, first, section):
    starts = [number for number, line in enumerate(lines) if starts_item(line)] + [len(lines)]
    for start, end in zip(starts, starts[1:]):
        line, block = lines[start], lines[start:end]
        if line.startswith(('module ', 'mutual')):
            body = next(number for number, part in enumerate(block) if part.rstrip().endswith(('where', 'mutual'))) + 1
            yield from items_of([part[2:] for part in block[body:]], first + start + body, section + ' '.join(block[:body]))
        else:
            yield item(block, first + start, section)


def starts_item(line):
    return bool(re.match(r'(module|mutual|infix[lr]?|open|ruleset)\b', line) or DATA.match(line) or SIGNATURE.match(line))


def item(block, line, section):
    text = '\n'.join(block)
    data, signature = DATA.match(text), SIGNATURE.match(text)
    if data:
        made = ' '.join(re.findall(r'^  ([^:\n]+) :', text, re.M)).split() if data[1] == 'data' else []
        return Item('definition', text.startswith('pub '), [data[2], *made], line, section, text, text)
    if signature:
        # its type goes on in the lines below it that are set in
        type_lines = [block[0][signature.end():]]
        for part in block[1:]:
            if part and not part.startswith(' '):
                break
            type_lines.append(part)
        kind = 'definition' if re.search('abbrev|unfoldable', signature[1]) else 'law'
        return Item(kind, 'pub ' in signature[1], [signature[2]], line, section, '\n'.join(type_lines).strip(), text)
    return Item('fixity' if text.startswith('infix') else 'other', False, [], line, section, '', text)


def imports(text):
    """What the `use` lines of an .antt file, or the `ghost use` lines of a .rt file, bring in."""
    names, modules = {}, {}
    for path, braces, alias in re.findall(r'^ *(?:unfoldable )?(?:pub )?(?:ghost )?use ([^\s{;]+?)(?:\.\{([^}]*)\})?(?: as ([^\s;]+))?;?$', text, re.M):
        if not braces:
            modules[alias or path.split('.')[-1]] = module_of(path)
        for entry in filter(None, (part.strip() for part in braces.split(','))):
            there, _, here = entry.partition(' as ')
            inner, _, last = there.rpartition('.')
            names[here.strip() or last] = (module_of(path) + '.' * bool(inner) + inner, last)
    return Imports(names, modules)


def cited(code, known):
    """What a piece of antt cites of the names known in its file: an operator by all its signs, an item of a module by its path. A projection is no name."""
    words, found = set(), set()
    for path in PATH.findall(code):
        first, *rest = path.split('.')
        if rest and first in known.modules:
            found.add(('.'.join([known.modules[first], *rest[:-1]]), rest[-1]))
        elif len(rest) > 1 and first == 'Rattle':
            found.add((module_of('.'.join([first, *rest[:-1]])), rest[-1]))
        elif first:
            words.add(first)
    return found | {target for name, target in known.names.items() if all(part in words for part in name.split('◌') if part)}
