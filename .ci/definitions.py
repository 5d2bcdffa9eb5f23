#!/usr/bin/env python3
"""definitions.py [--table]

Finds the definitions that the clauses of public calls, traits, types and laws reach, through other definitions too, and
compares them with the table "By file" of docs/DEFINITIONS.md. It fails where the two differ, and where a definition is
reached that stands in a file whose first line is '-- For private clauses.'. With --table it prints the table's rows.

It goes by words, not by scopes: a word of a clause or a definition is taken for the definition that its file imports or has
under that name."""
import pathlib, re, sys

TOP = pathlib.Path(__file__).resolve().parent.parent
PRIVATE = '-- For private clauses.'
HEADING = '## By file'
USE = re.compile(r'(?:ghost )?use Rattle\.(\w+)\.specs\.([\w.]+?)(?:\.\{([^}]*)\}| as (\w+))?;?\s*$')
DEFINES = re.compile(r'^(?:abbrev pub|unfoldable pub|pub record|pub data|pub|abbrev|unfoldable|record|data)\s+([^\s:({]+)')
WORD = re.compile(r'[^\s(){}\[\],;=λ×→≡≢≤<>+*/|&"↔⊎¬∷]+')


def imports(lines):
    """What a file imports from specs/: its names, each as (crate, module, name there), and its modules."""
    names, modules = {}, {}
    for line in lines:
        found = USE.match(line.strip())
        if not found or found[2].startswith('declared'):
            continue
        crate, module, listed, renamed = found.groups()
        if listed is None:
            modules[renamed or module.split('.')[-1]] = (crate, module)
            continue
        for item in listed.split(','):
            there, _, here = item.strip().partition(' as ')
            names[here or there] = (crate, module, there)
    return names, modules


def words(text):
    """The words of a text, each with the word before it where a dot or a colon joins the two."""
    for found in WORD.finditer(re.sub(r'--.*', '', text)):
        parts = [part for part in re.split(r'[.:]', found[0]) if part]
        for k, part in enumerate(parts):
            yield parts[k - 1] if k else None, part


def spec_files():
    """(crate, module) -> (path, whether it is for private clauses, its definitions by name, its imports)."""
    files = {}
    for path in sorted(TOP.glob('crates/*/specs/**/*.antt')):
        crate = path.relative_to(TOP).parts[1]
        module = '.'.join(path.relative_to(TOP / 'crates' / crate / 'specs').with_suffix('').parts)
        if module == 'Lib':
            continue
        lines = path.read_text().split('\n')
        defined, name = {}, None
        for line in lines:
            found = DEFINES.match(line)
            if found:
                name = found[1]
            if name and not USE.match(line.strip()) and not line.startswith('--'):
                defined[name] = defined.get(name, '') + '\n' + line
        files[crate, module] = (path, lines[0].startswith(PRIVATE), defined, imports(lines))
    return files


def exported(crate):
    """The names that a crate's root file lets out, and the modules that it makes public."""
    names, modules = {'main'}, {'main', 'lib'}
    root = TOP / 'crates' / crate / 'src' / 'lib.rt'
    if root.is_file():
        text = root.read_text()
        for several, one in re.findall(r'^pub use [\w:]*?(?:\{([^}]*)\}|(\w+));', text, re.M):
            names |= {item.strip().split('::')[-1].split(' as ')[0] for item in (several or one).split(',')}
        modules |= set(re.findall(r'^pub mod (\w+);', text, re.M))
    return names, modules


def type_of(header):
    """The type of an impl, and whether the impl is of a trait."""
    header = re.sub(r'<[^<>]*(?:<[^<>]*(?:<[^<>]*>)?[^<>]*>[^<>]*)*>', '', header)
    found = re.match(r"impl\s+(?:([\w:]+)\s+for\s+)?&?(?:'\w+ )?(?:mut )?([\w:]+)", header)
    return (found[2].split('::')[-1], bool(found[1])) if found else ('', False)


def public_clauses(path):
    """The clauses of the public items of a source file. The invariant of a model is the crate's own affair."""
    lines = path.read_text().split('\n')
    names, modules = exported(path.relative_to(TOP).parts[1])
    all_out = path.stem in modules
    texts, here, of_trait, public, in_clause = [], False, False, False, False
    for line in lines:
        bare = line.strip()
        if bare.startswith(('//', 'ghost use')):
            continue
        if bare.startswith('ghost invariant'):
            in_clause = False
            continue
        item = re.match(r'(?:(pub)(\(crate\))? )?(?:const )?(impl|trait|struct|enum|fn)\b\s*(\w*)', line)
        if item:
            out, kind, name = bool(item[1]) and not item[2], item[3], item[4]
            if kind == 'impl':
                name, of_trait = type_of(line)
                here = name in names or all_out
            else:
                here, of_trait = (out and (all_out or name in names)) or name == 'main', kind == 'trait'
            public, in_clause = here and (kind == 'fn' or of_trait), False
        method = re.match(r'\s+(pub(?:\(crate\))? )?(?:const )?fn\b', line)
        if method:
            public, in_clause = here and (of_trait or method[1] == 'pub '), False
        if line.startswith('    ghost ') and here and not in_clause:
            texts.append(bare)
        if re.match(r'(requires|ensures|ghost)\b', bare):
            in_clause = True
        elif bare in ('{', '}') or bare.endswith(' {') and not in_clause:
            in_clause = False
        if in_clause and public:
            texts.append(bare)
    return '\n'.join(texts), imports(lines)


def reached(files):
    """The definitions that public clauses reach, each as (crate, module, name)."""
    todo, seen = [], set()

    def follow(text, names, modules, defined):
        for before, word in words(text):
            if modules.get(before) in files:
                todo.append((*modules[before], word))
            if word in names:
                todo.append(names[word])
            if defined and word in files[defined][2]:
                todo.append((*defined, word))

    for path in sorted(TOP.glob('crates/*/src/**/*.rt')):
        if path.stem != 'tests' and 'tests' not in path.parts:
            text, (names, modules) = public_clauses(path)
            follow(text, names, modules, None)
    while todo:
        crate, module, name = todo.pop()
        if (crate, module, name) in seen or (crate, module) not in files:
            continue
        _, _, defined, (names, modules) = files[crate, module]
        if name in defined:
            seen.add((crate, module, name))
            follow(defined[name], names, modules, (crate, module))
        elif name in names:
            todo.append(names[name])
    return seen


def told():
    """The table of docs/DEFINITIONS.md: file -> names."""
    _, _, part = (TOP / 'docs/DEFINITIONS.md').read_text().partition(HEADING)
    rows = {}
    for line in part.partition('\n## ')[0].split('\n'):
        if line.startswith('| `crates/'):
            file, names = line.split(' | ', 1)
            rows[file.strip('|` ')] = re.findall(r'`([^`]+)`', names)
    return rows


def main():
    files = spec_files()
    table, bad = {}, []
    for crate, module, name in sorted(reached(files)):
        path, private, _, _ = files[crate, module]
        if private:
            bad.append(f'{path.relative_to(TOP)}: `{name}` is for private clauses, and a public one reaches it')
        table.setdefault(f'crates/{crate}/specs/{module.replace(".", "/")}', {})[name] = list(files[crate, module][2]).index(name)
    if '--table' in sys.argv:
        for file, names in table.items():
            print(f'| `{file}` | {", ".join(f"`{name}`" for name in sorted(names, key=names.get))} |')
        return 0
    rows = told()
    for file in sorted(set(table) | set(rows)):
        have, want = set(table.get(file, [])), set(rows.get(file, []))
        bad += [f'{file}: `{name}` is reached by a public clause, and the table lacks it' for name in sorted(have - want)]
        bad += [f'{file}: `{name}` stands in the table, and no public clause reaches it' for name in sorted(want - have)]
    print('\n'.join(bad + [f'definitions: {sum(map(len, table.values()))} reached, {len(bad)} differences']))
    return 1 if bad else 0


sys.exit(main())
