#!/usr/bin/env python3
"""Names that nothing has, in README, docs/, the pages of scripts/ and bench/, and those of the crates (the `//!` lines of src/lib.rt).

    page_names.py [PAGE..]    prints `PAGE:LINE NAME: fault` for each, of all pages or of these; status 1 where there is one

Looked at is what stands between backticks, and each path from the top. A place is about the crate of its page, or the crates that the heading above it
names, and those that its paragraph, point or row names; it may name what is theirs or of a crate that they stand on. Under other headings it may name all.
  - What has a `/` or the ending of a source is a path: a file or folder of the repository or of such a crate. Words of capitals stand for any name.
  - `a::b` is a public name of a crate, what stands in a module, or a call, variant or field of a type.
  - Behind `To read:` in the page of a crate a word is a module of that crate.
  - Any other word is a name in the code of src/, specs/ or proofs/ (comments are none), a file there, or the front of such a name if it ends with `_`; a
    word of a text in src/, which the program reads or prints; a file of scripts/ or bench/ or, without a `_`, a word in them, as tools are; or one of WORDS.
All else is passed over: commands of several words, lines and signs of texts, numbers, bytes, names of sections, absolute paths. The target of a link
is a page, and the words in quotes behind it begin a heading there. The pages of scripts/ and bench/ have a point for each file but NAME.* beside NAME.
"""
import collections, os, re, sys

WORDS = '|'.join([
    r'DW_\w+|(e|p|sh|ch)_[a-z]+',  # names of the standards by their beginnings
    # an attribute, fields of line table headers, registers of line programs (DWARF 5, 2.15, 6.2.2, 6.2.4)
    r'abstract_origin|unit_length|header_length|address_size|segment_selector_size|(minimum|maximum)_\w+_(length|instruction)',
    r'standard_opcode_lengths|is_stmt|basic_block|prologue_end|epilogue_begin|discriminator|op_index',
    r'_Z\w+|_R\w*|(core|foo|n)::.*|[0-9a-f]{16}',  # mangled names, names of programs that are examples, the hash of the logic
    r'and|SmallVec|smallvec'])  # an operation of expressions whose name Rattle has for itself; a library that is not used
TOP = os.path.dirname(os.path.dirname(os.path.abspath(__file__)))
NAME = r'[A-Za-z_]\w*'


def read(path):
    with open(os.path.join(TOP, path), encoding='utf-8') as file:
        return file.read()


paths = set()
for folder, folders, files in os.walk(TOP):
    folders[:] = [name for name in folders if name not in ('.git', 'out', '__pycache__')]
    paths |= {os.path.relpath(os.path.join(folder, name), TOP) for name in folders + files}
listing = '\n'.join(sorted(paths))
stands_on = {crate: below.split() for crate, below in re.findall(r'(?m)^(\w+):(.*)', read('crates.txt'))}
names = collections.defaultdict(set)  # by crate
members = collections.defaultdict(set)  # by crate, and type or module
texts, tools, stems = set(), set(), {os.path.basename(path).split('.')[0] for path in paths if path.startswith(('scripts/', 'bench/'))}


def add_source(path):
    crate, module, code = path.split('/')[1], os.path.basename(path).rsplit('.', 1)[0], read(path)
    if path.endswith('.rt'):
        texts.update(re.findall(r'[\w-]+', ' '.join(re.findall(r'"((?:[^"\\\n]|\\.)*)"', code))))
        code = re.sub(r'//.*', '', re.sub(r'"(?:[^"\\\n]|\\.)*"', '', code))
        kind = r'(?ms)^(?:pub(?:\([^)]*\))? )?(?:impl\b(?:<[^>]*>)? (?:[^{\n]* for )?|enum |struct |trait )(\w+).*?^}'
        for block in re.finditer(kind, code):
            members[crate, block[1]].update(re.findall(r'(?m)(?:fn |^    (?:pub )?(?!pub|fn))(\w+)', block[0]))
    else:
        code = re.sub(r'--.*', '', code)
    found = re.findall(NAME, code)
    names[crate].update(found, path.split('/')[3:-1], [module])
    members[crate, module].update(found)


def below(crates):
    """These crates and all that they stand on: a crate stands in crates.txt behind those."""
    found = set(crates)
    for crate in reversed(stands_on):
        found |= set(stands_on[crate]) if crate in found else set()
    return found


def crates_in(text):
    return set(re.findall(NAME, ' '.join(re.findall(r'`([^`]+)`', text)))) & set(stands_on)


def places(page):
    """The paragraphs, points and rows of a page, each with its first line and the heading above it."""
    fenced, heading, start, part = False, '', 1, []
    for number, line in enumerate(read(page).split('\n') + [''], 1):
        if page.endswith('.rt'):
            line = line[3:] if line.startswith('//!') else ''
        fence = line.lstrip().startswith('```')
        fenced ^= fence
        if fenced or fence or not line.strip() or re.match(r'\s*(- |\d+\. |\||#)', line):
            if part:
                yield start, heading, '\n'.join(part)
            start, part = number, []
        if not fenced and not fence:
            heading = line if line.startswith('#') else heading
            part.append(line)


def is_name(word, crates):
    plain = word.rstrip('!')
    if plain.endswith('_'):
        return any(name.startswith(plain) for crate in crates for name in names[crate])
    return bool(plain in stands_on or any(plain in names[crate] for crate in crates) or plain in texts
                or plain in stems or '_' not in plain and plain in tools or re.fullmatch(WORDS, plain))


def fault(text, near, crates, is_module):
    """What is wrong with a text between backticks in a place that is about the crates `near`, whose names may be those of `crates`."""
    word = text.split(' ')[0]
    if re.search(r'^(?![/.]|[A-Z]+/).*[\w)]/|\w\.(rt|antt|py|md|gdb)$', word):
        path = re.sub(r'\b[A-Z]{2,}\b|\\\*', r'[^/\n]*', re.escape(word.rstrip('/')))
        found = re.search(rf'(?m)^(?:crates/|scripts/|bench/|crates/(?:{"|".join(near)})/(?:.*/)?)?{path}$', listing)
        return None if found else 'there is no such file or folder'
    name = re.fullmatch(rf'({NAME}!?(?:(?:::|\.){NAME})*)(\(.*\))?', text)
    if not name or re.fullmatch(WORDS, name[1]):
        return None
    if is_module and name[1].islower() and not any(f'crates/{crate}/src/{name[1]}.rt' in paths for crate in near):
        return 'the crate has no such module'
    first, *later = re.split(r'::|\.', name[1])
    for part in [first] + later:
        if not is_name(part, crates):
            return f'nothing here has the name {part}'
    of_crate = first in stands_on
    if '::' in name[1] and not any(later[0] in members[crate, 'lib' if of_crate else first] for crate in ([first] if of_crate else crates)):
        return f'{first} has no {later[0]}'
    return None


def faults(page):
    of_crate, index = re.findall(r'^crates/(\w+)/', page), re.fullmatch(r'((?:scripts|bench)/)README\.md', page)
    if index:
        files = {path[len(index[1]):] for path in paths if path.startswith(index[1])}
        files = {name for name in files if '/' not in name and name != 'README.md' and (name == name.split('.')[0] or name.split('.')[0] not in files)}
        for name in sorted(files ^ set(re.findall(r'(?m)^- `([^`]+)`', read(page)))):
            yield 1, f'`{name}`: ' + ('no point of the page names this file' if name in files else 'there is no such file')
    for start, heading, text in places(page):
        about = set(of_crate) or crates_in(heading)
        near = about | crates_in(text)
        crates = below(near) if about else set(stands_on)
        for quoted in re.finditer(r'`([^`]+)`|(?<![\w/(])((?:scripts|bench|docs|crates)/[\w./]*\w)', text):
            before, name = text[:quoted.start()], ' '.join((quoted[1] or quoted[2]).split())
            wrong = fault(name, near or crates, crates, of_crate and 'To read:' in before)
            if wrong:
                yield start + before.count('\n'), f'`{name}`: {wrong}'
        for link in re.finditer(r'\]\(([\w/.]+)\)(?:,\s"([^"]+)")?', text):
            target, section = os.path.normpath(os.path.join(os.path.dirname(page), link[1])), ' '.join((link[2] or '').split())
            if target not in paths or not re.search(rf'(?m)^#+ {re.escape(section)}', read(target)) and section:
                yield start + text[:link.start()].count('\n'), f'{link[1]} {section}: there is no such page or heading'


for path in sorted(paths):
    if path.startswith('crates/') and path.endswith(('.rt', '.antt')):
        add_source(path)
    elif re.match(r'(?:scripts|bench)/(?!.*(?:\.md|page_names\.py|/pages)$)', path) and os.path.isfile(os.path.join(TOP, path)):
        tools.update(re.findall(r'[\w+-]+', read(path)))
pages = sys.argv[1:] or sorted(path for path in paths if re.fullmatch(r'((scripts|bench)/)?README\.md|docs/\w+\.md|crates/\w+/src/lib\.rt', path))
wrong = [f'{page}:{line} {what}' for page in pages for line, what in faults(page)]
print(*wrong, sep='\n', end='\n' if wrong else '')
sys.exit(bool(wrong))
