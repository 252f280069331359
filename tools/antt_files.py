"""Files of definitions and lemmas that a script writes in part: what is new is put in, and all else stays as it stands.

A file is its head (comments and `use` lines) and blocks behind it, with blank lines between them. A block is the
comment above a definition and its lines, and goes by the definition's name. A block that says the same as the one that
stands there, but for how its lines are broken, is left alone. So is each clause of a block. So a tree that is as
generated stays as it is, whatever laid it out. Imports change only where a block did: those that nothing names any more
go, and those that are missing come."""
import re

WIDTH = 118
NAME = re.compile(r"^(?:(?:abbrev|unfoldable|pub|open) )*([A-Za-z_][\w']*)(?: :|(?: [^:=]*)? =)", re.M)
USE = re.compile(r'^use ([\w.]+)\.\{([^}]*)\}$')


def split(text):
    """The head of a file, and its blocks."""
    paragraphs = [it.strip('\n') for it in re.split(r'\n[ \t]*\n', text) if it.strip('\n')]
    heads = []
    while paragraphs and not name_of(paragraphs[0]):
        heads.append(paragraphs.pop(0))
    return '\n\n'.join(heads), paragraphs


def name_of(block):
    """The name of what a block defines, or none."""
    code = '\n'.join(line for line in block.split('\n') if not re.match(r'\s*(--|use )', line))
    found = NAME.search(code)
    return found[1] if found else None


def said(block):
    """What a block says, without its comment: spaces at parentheses, commas and line ends, and a comma before a closing
    parenthesis, are the layout's."""
    code = ' '.join(line for line in block.split('\n') if not line.lstrip().startswith('--'))
    code = re.sub(r'\s*([(),{}])\s*', r'\1', ' '.join(code.split()))
    return re.sub(r',([)}])', r'\1', code)


def same(old, new):
    """Whether two blocks say the same. The comment above stays as it stands: it is written by hand."""
    return said(old) == said(new)


def renewed(old, new):
    """A block that says something new, with the lines of the old one where they say the same, and its comment."""
    standing = {said(it): it for it in clauses(old)}
    comment = [line for line in old.split('\n') if line.startswith('--')]
    return '\n'.join([*comment, *(standing.get(said(it)) or broken(it) for it in clauses(new))])


def clauses(block):
    """The lines of a block that begin at the left, each with those that go on with it; no comment."""
    found = []
    for line in block.split('\n'):
        if line.startswith(' ') and found:
            found[-1] += '\n' + line
        elif not line.startswith('--'):
            found.append(line)
    return found


def broken(text):
    """No line longer than the width: broken at spaces, where the fewest parentheses are open, the last of these."""
    out = []
    for line in text.split('\n'):
        indent = len(line) - len(line.lstrip())
        while len(line) > WIDTH:
            depth, quoted, best = 0, False, None
            for at, c in enumerate(line[:WIDTH]):
                quoted ^= c == '"'
                depth += (c == '(') - (c == ')')
                if c == ' ' and not quoted and at > indent + 20 and not line[:at].endswith('λ'):
                    best = max(best or (-depth, at), (-depth, at))
            if best is None:
                break
            out.append(line[:best[1]])
            line = ' ' * max(4, min(indent, 8)) + line[best[1] + 1:]
        out.append(line)
    return '\n'.join(out)


def is_named(name, body):
    """Whether a body names what is imported. An operator's name is its signs, with rings where its operands stand."""
    return all(re.search(rf"(?<![\w'.]){re.escape(part)}(?![\w'])", body) if part[0].isalnum() else part in body
               for part in name.split('◌') if part)


def imports(lines, wanted, body):
    """The `use` lines of a head: those that stand there without what nothing names, and behind them what is missing of
    the names that are wanted of each module, or of a module under another name."""
    body = re.sub(r'^\s*--.*|"[^"]*"', '', body, flags=re.M)
    found, named = [], set()
    for line in lines:
        use = USE.match(line)
        if not use:
            found.append(line)
            continue
        names = [it.strip() for it in use[2].split(',') if is_named(it.strip().split(' as ')[-1], body)]
        named |= set(names)
        if names:
            found.append(f'use {use[1]}.{{{", ".join(names)}}}')
    for module, names in wanted.items():
        if ' as ' in module and f'use {module}' not in lines and f'{module.split()[-1]}.' in body:
            found.append(f'use {module}')
        rest = [it for it in dict.fromkeys(names) if it not in named and is_named(it.split(' as ')[-1], body)]
        while rest:
            count = len(rest)
            while len(f'use {module}.{{{", ".join(rest[:count])}}}') > WIDTH:
                count -= 1
            found.append(f'use {module}.{{{", ".join(rest[:count])}}}')
            rest = rest[count:]
    return found


def merged(old, blocks, wanted, keeps):
    """The text of a file with these blocks in it, in the place of those of their names; a new one stands behind the one
    before it. Of the others those stay whose name passes."""
    head, there = split(old)
    new = {name_of(it): it for it in blocks}
    standing = {name_of(it): it for it in there}
    out = [it for it in there if name_of(it) in new or keeps(name_of(it))]
    is_changed = len(out) < len(there)
    before = None
    for name, block in new.items():
        names = [name_of(it) for it in out]
        if name not in standing:
            out.insert(names.index(before) + 1 if before else 0, broken(block))
            is_changed = True
        elif not same(standing[name], block):
            out[names.index(name)] = renewed(standing[name], block)
            is_changed = True
        before = name
    if not is_changed:
        return old
    comments = [line for line in head.split('\n') if line.startswith('--')]
    uses = [line for line in head.split('\n') if line.startswith('use ')]
    return '\n'.join(comments + imports(uses, wanted, '\n\n'.join(out))) + '\n\n' + '\n\n'.join(out) + '\n'


def put(path, blocks, wanted=None, keeps=lambda name: False):
    """Puts blocks into a file, which changes only if they say something else than what stands there."""
    with open(path, encoding='utf8') as file:
        old = file.read()
    new = merged(old, blocks, wanted or {}, keeps)
    if new != old:
        with open(path, 'w', encoding='utf8') as file:
            file.write(new)
