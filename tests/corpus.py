#!/usr/bin/env python3
"""Runs `canon` on real files, as one who uses it would. No part of the gate; docs/CORPUS.md says what came of it.

  tests/corpus.py CANON [PLACE..]           CANON is the built program, a PLACE a folder or a file; without one they are
                                            Debian's rust-src, and behind it cargo's registry of Debian with the
                                            crates of docs/CORPUS.md, whose packages are fetched
  tests/corpus.py --peer CANON [PLACE..]    asks a peer too: corpus_peer.rs over syn and proc-macro2 of Debian's
                                            packages, which is built with plain rustc, and not kept
  --jobs N                                  files at once (2)
  --seconds N                               what a run may take (60)
  --all                                     lists each refusal and each difference, and not only those that need a look

Of each `.rs` file in the folders: is it accepted; if so, is its output accepted and its own output; if not, by which
form. That is guessed from the text at the fault's place, and `other` is what no guess fits. A run that ends by a
signal, or takes too long, is listed by itself.

Where both accept, the tokens of the peer's tree of the text are compared with those of canon's output, and each
difference is given to the departure that it looks like. Likewise the tokens of each accepted text with those of its
output, all lexed by the peer: what differs there is what normal form does.
"""
import argparse
import collections
import functools
import os
import re
import subprocess
import sys
import tempfile
from concurrent.futures import ProcessPoolExecutor

HERE = os.path.dirname(os.path.abspath(__file__))
sys.path.insert(0, os.path.join(os.path.dirname(HERE), 'bench'))
from canon import peer_of
from shapes import REGISTRY, fetch

Case = collections.namedtuple('Case', 'name outcome fault own peer differences changes lines')

# The packages whose crates, and those that they need, docs/CORPUS.md tells of.
CRATES = ('serde serde-json regex regex-syntax libc rand syn quote proc-macro2 clap hashbrown indexmap itertools log '
          'memchr tokio futures-util bitflags chrono num-traits').split()


# Runs.

def run(command, text, seconds):
    """The status (None if it took too long, negative by a signal), standard output, a first line of standard error."""
    try:
        done = subprocess.run(command, input=text, capture_output=True, timeout=seconds)
    except subprocess.TimeoutExpired:
        return None, b'', ''
    return done.returncode, done.stdout, done.stderr.decode(errors='replace').strip()


def files_of(places):
    """Each file with the name that is printed for it: its path from the place that was given."""
    for place in places:
        place = place.rstrip('/')
        if os.path.isfile(place):
            yield place, os.path.basename(place)
        for folder, _, names in os.walk(place):
            for name in names:
                if name.endswith('.rs') and os.path.isfile(os.path.join(folder, name)):
                    path = os.path.join(folder, name)
                    yield path, os.path.join(os.path.basename(place), os.path.relpath(path, place))


def debian():
    """The folders of Debian's packages: the compiler with its library and tests, and the crates."""
    fetch(*(f'librust-{name}-dev' for name in CRATES))
    listed = subprocess.run(['dpkg', '-L', 'rust-src'], capture_output=True, text=True, check=True).stdout
    library = next(line for line in listed.splitlines() if line.endswith('/library'))
    return [os.path.dirname(library)], [REGISTRY]


def case_of(options, pair):
    path, name = pair
    with open(path, 'rb') as file:
        text = file.read()
    lines = text.count(b'\n')
    status, output, fault = run([options.canon], text, options.seconds)
    peer = None
    if options.peer:
        peer_status, peer_output, _ = run([options.peer, 'file'], text, options.seconds)
        peer = 'accepted' if peer_status == 0 else 'refused' if peer_status == 1 else 'ended'
    if status != 0:
        outcome = 'refused' if status == 1 else 'too long' if status is None else 'ended with %d' % status
        return Case(name, outcome, fault_of(fault, text), None, peer, [], [], lines)
    again, own_output, _ = run([options.canon], output, options.seconds)
    own = again == 0 and own_output == output
    differences, changes = [], []
    if options.peer:
        lexed, here, _ = run([options.peer, 'lex'], output, options.seconds)
        read, there, _ = run([options.peer, 'lex'], text, options.seconds)
        if lexed != 0 or read != 0:
            changes = [('the peer does not lex the %s' % ('output' if read == 0 else 'text'), '', '')]
        else:
            changes = list(differences_of(tokens_of(there), tokens_of(here)))
        if peer == 'accepted' and lexed == 0:
            differences = list(differences_of(tokens_of(peer_output), tokens_of(here)))
    return Case(name, 'accepted', None, own, peer, differences, changes, lines)


# Refusals.

def fault_of(message, text):
    """The form, the place, the fault's line, and the line of the text with a bar at the place."""
    text = text.decode(errors='replace')
    found = re.search(r' at (\d+):(\d+)', message)
    lines = text.split('\n')
    if not found:
        return form_of(message, text, ''), 'end', message, ''
    line, column = int(found[1]), int(found[2])
    before = '\n'.join(lines[:line - 1] + [lines[line - 1][:column]])
    behind = '\n'.join([lines[line - 1][column:]] + lines[line:])
    shown = (lines[line - 1][:column] + '▮' + lines[line - 1][column:]).strip()
    return form_of(message, before, behind), '%d:%d' % (line, column), message, shown[:160]


def code_of(text):
    """A front of a text without its comments and attributes, roughly."""
    text = re.sub(r'(?s)/\*.*?\*/', ' ', text)
    text = re.sub(r'//[^\n]*', ' ', text)
    return re.sub(r'(?s)#!?\[[^\]]*\]', ' ', text)


def code_of_front(text):
    """The same of a text whose first line may be a shebang: its marks stay, and behind them comments are left out."""
    return '#!' + re.sub(r'//[^\n]*', ' ', re.sub(r'(?s)/\*.*?\*/', ' ', text[2:400]))


def group_end(text):
    """Behind the group that begins at the front of a text, or 0."""
    depth = 0
    for i, c in enumerate(text):
        depth += (c in '([{') - (c in ')]}')
        if depth <= 0:
            return i + 1
    return 0


def form_of(message, before, behind):
    """The form that is left out, by the text before the fault's place and behind it."""
    near = code_of(before[-3000:]).rstrip()
    word = re.search(r'(?:r#)?\w*$', near)[0]
    first = code_of(behind[:3000]).lstrip()
    whole = before + behind
    if re.match(r'#!', whole) and not re.match(r'#!\s*\[', code_of_front(whole)):
        return 'shebang'
    if re.match(r'(?:#![^\n]*\n)?\s*---', whole):
        return 'frontmatter'
    if 'lexical fault' in message:
        return 'lexical'
    if re.search('may stand here|trait behind', message) and refused_item(first):
        return refused_item(first)
    if not code_of(before).strip():
        return 'no whole file: its first token begins no item'
    if word == 'try' and re.match(r'!|::', first):
        return '`try!` and `try::`'
    if re.match(r'!\s*[(\[{]', first) and word:
        rest = code_of(first[1:].lstrip()[group_end(first[1:].lstrip()):]).lstrip()
        path = re.search(r'(?:\w|::|\$)*$', near)
        left = near[:path.start()].rstrip()
        if re.match(r'=>|\||if\b', rest) or re.search(r'\blet$|\bfor$|\|$|=>\s*$', left):
            return 'macro as a pattern'
        if re.search(r'[:<&*,=(>\[]$|\b(?:as|for|dyn|impl|mut|const)$', left) or re.search(r"'\w+$", left):
            return 'macro as a type'
    if word == 'builtin' and first.startswith('#'):
        return '`builtin #`'
    if re.match(r'box\b', first):
        return '`box`'
    if word == 'box':
        return '`box`'
    if re.match(r'~\s*const\b', first):
        return '`~const`'
    if re.match(r'const\b', first) and re.search(r'\bimpl\b[^;{}]*$', near):
        return '`impl const`'
    if first.startswith('use') and re.match(r'use\s*<', first):
        return '`use<..>`'
    if re.match(r'impl\b', first) and re.search(r'\bpub(?:\s*\([^()]*\))?(?:\s+(?:default|unsafe))*$', near):
        return '`pub impl`'
    if re.match(r':[^:]', first) and 'expected `>`' in message:
        return '`Name: Bound` among arguments'
    if first.startswith('=') and near.endswith('>'):
        return '`Name<..> =` among arguments'
    if first.startswith('...'):
        if re.search(r'\bfn\b[^(]*\([^()]*$', near):
            return '`...` in a function pointer, or not at the end'
        return '`...` in patterns'
    if re.match(r'\+', first) and re.search(r'[\w>)]$', near):
        return 'bare trait object'
    if re.search(r'=\s*$', near) and re.match(r"-?\d|[\"'{]|true|false", first) and 'const' not in word:
        return 'constant in an equality'
    if word == 'try' and first.startswith('(') or re.match(r'(?:async|await|dyn|try)\b', first) and (
            re.search('expected (?:identifier|pattern)', message) or first.startswith('await!')):
        return '`async`, `await`, `dyn` or `try` as a name'
    if first.startswith('(') and re.search(r'(?:\b(?:dyn|impl)|\+|\w\s*:)$', near):
        return 'bound in parentheses'
    if re.match(r'const\s*\{', first):
        return '`const` pattern'
    if re.match(r'-\s*\d', first) and re.search(r'[<,]$', near):
        return 'negative literal as an argument'
    if re.match(r'_\s*[>,]', first) and re.search(r'[<,]$', near):
        return '`_` as a parameter'
    if re.search(r'\?$', near) and first.startswith('for'):
        return '`for<..>` behind `?`'
    if 'expected `fn`' in message and near.endswith('>'):
        return '`for<..>` before a type'
    if first.startswith('=') and re.search(r'\btype\b[^;{}=]*\bwhere\b[^;{}=]*$', near):
        return 'a where clause before `=` in an impl or a trait'
    if first.startswith('|') and re.search(r'\blet\b[^;=]*$|\bfn\b[^{};]*$', near):
        return 'alternatives without parentheses behind `let` or as a parameter'
    if re.search(r'#!?\[[^\]]*$', near) and re.match(r'[^\n]*\]', first):
        return 'an attribute that is none by its path and value'
    if 'comparison' in message:
        return 'chained comparison'
    if re.match(r'\.\.', first) and re.search(r'\.\.=?\s*[^;]{1,80}$', near):
        return 'chained range'
    if re.search(r'\.\.=$', near):
        return '`..=` without an end'
    if (re.match(r':(?!:)', first) and re.search(r'[\w)\]}>]$', near)
            and re.search(r'expected (?:`[;,]`|expression|no token)', message)):
        return 'type ascription'
    if re.match(r'mut\s+self', first):
        return '`mut self` in a function pointer'
    if 'before all parameters' in message and re.match(r"(?:&\s*(?:'\w+\s+)?)?(?:mut\s+)?self\b", first):
        return 'a receiver that is not first'
    return 'other'


def refused_item(first):
    """The form of the item that a text begins with, where it is read and then refused."""
    head = re.match(r'(pub(?:\s*\([^()]*\))?\s+)?(?:default\s+)?(?:unsafe\s+)?(?:(impl)\b|extern\b|[\w:]+\s*!)([^{;]*)',
                    first)
    if not head:
        return None
    if head[1]:
        return '`pub impl`' if head[2] else '`pub` before a macro or an extern block'
    if head[2] and re.match(r'(?:\s*<[^{]*>)?\s*!', head[3]) and not re.search(r'\bfor\b', head[3]):
        return '`impl !Trait` without `for`'
    return None


# Differences.

def tokens_of(output):
    return output.decode(errors='replace').split('\n')[:-1]


def differences_of(there, here):
    """(departure, the peer's tokens, ours) of each place where two lists of tokens differ."""
    i = j = 0
    keep = 4
    while True:
        while i < len(there) and j < len(here) and there[i] == here[j]:
            i += 1
            j += 1
        if i == len(there) and j == len(here):
            return
        p, q = len(there) - i, len(here) - j
        found = False
        for total in range(1, 3000):
            for a in range(max(0, total - (len(here) - j)), min(total, len(there) - i) + 1):
                b = total - a
                one, two = there[i + a:i + a + keep], here[j + b:j + b + keep]
                both_end = i + a + len(one) == len(there) and j + b + len(two) == len(here)
                if one == two and (len(one) == keep or both_end):
                    p, q, found = a, b, True
                    break
            if found:
                break
        yield (departure_of(there, here, i, j, p, q), ' '.join(there[max(0, i - 8):i + p + 4])[:200],
               ' '.join(here[max(0, j - 8):j + q + 4])[:200])
        i, j = i + p, j + q


def number_of(token):
    """The number that an integer's digits are, whatever their base."""
    digits = re.fullmatch(r'(0[xob])?([0-9a-fA-F]+)', token.replace('_', ''))
    try:
        return int(digits[2], {'0x': 16, '0o': 8, '0b': 2, None: 10}[digits[1]]) if digits else None
    except ValueError:
        return None


def split(tokens):
    """A float behind a dot as the indices that it is."""
    parts = [part for token in tokens for part in re.split(r'(\.)', token) if part]
    return [str(number_of(part)) if number_of(part) is not None else part for part in parts]


def behind(short, long):
    """Whether the tokens of a list stand in another one, in their order."""
    rest = iter(long)
    return all(token in rest for token in short)


def unescaped(token):
    return re.sub(r"\\\\(?:u\{([0-9a-fA-F]+)\}|(.))", lambda m: chr(int(m[1], 16)) if m[1] else m[2], token)


def departure_of(there, here, i, j, p, q):
    theirs, ours = there[i:i + p], here[j:j + q]
    around = there[max(0, i - 3):i]
    if not ours and theirs == ['<', '>']:
        return 'empty generics are dropped'
    if not ours and theirs == ['where']:
        return 'an empty where clause is dropped'
    if len(theirs) == len(ours) == 1:
        a, b = theirs[0], ours[0]
        if a[:1] == b[:1] == '"' and unescaped(a) == unescaped(b):
            return 'another escape in the text of a doc comment'
        if around[-1:] == ['.'] or number_of(a) is not None:
            if number_of(a) is not None and number_of(a) == number_of(b):
                return 'an index in plain decimal'
    if not theirs and ours == [',']:
        return 'a comma is added'
    if not ours and theirs == [',']:
        return 'a comma is dropped'
    if not theirs and ours == [';']:
        return 'a semicolon is added'
    if not ours and theirs == [';']:
        return 'a semicolon is dropped'
    if not theirs and ours == ['_', ':']:
        return 'a parameter gets the pattern `_`'
    if not ours and theirs[:1] == ['pub']:
        return 'a visibility is dropped'
    if not ours and theirs == ['+']:
        return 'a trailing `+` is dropped'
    if not theirs and ours == ['+']:
        return 'a trailing `+` is kept'
    if not ours and theirs == [':']:
        return 'a colon before no bounds is dropped'
    # Lifetimes that move leave a difference at each end.
    near = there[max(0, i - 4):i + p + 4]
    if "'" in theirs + ours or "'" in near and '<' in there[max(0, i - 20):i + p] and not (theirs and ours):
        return 'lifetimes stand first'
    if '.' in around + theirs and split(theirs) == ours:
        return 'a float behind a dot is two indices'
    if behind(ours, theirs):
        gone = collections.Counter(theirs) - collections.Counter(ours)
        if set(gone) <= {'<', '>', 'where'}:
            return 'empty generics and empty where clauses are dropped'
        if set(gone) <= {'pub', '(', ')', 'crate', 'super', 'self', 'in'}:
            return 'a visibility is dropped'
    if len(theirs) == len(ours) and all(a == b or number_of(a) is not None and number_of(a) == number_of(b)
                                        for a, b in zip(theirs, ours)):
        return 'an index in plain decimal'
    if set(theirs + ours) <= {'(', ')'}:
        return 'parentheses'
    if i == 0 and theirs[:2] == ['#', '!']:
        return 'shebang'
    return 'other'


# The report.

def main():
    parser = argparse.ArgumentParser(description=__doc__, formatter_class=argparse.RawDescriptionHelpFormatter)
    parser.add_argument('canon')
    parser.add_argument('places', nargs='*', metavar='place')
    parser.add_argument('--peer', action='store_true')
    parser.add_argument('--jobs', type=int, default=2)
    parser.add_argument('--seconds', type=float, default=60)
    parser.add_argument('--all', action='store_true')
    options = parser.parse_args()
    options.canon = os.path.abspath(options.canon)
    lists = [options.places] if options.places else debian()
    with tempfile.TemporaryDirectory() as work:
        if options.peer:
            fetch('librust-syn-dev', 'librust-quote-dev')
            options.peer = peer_of(work, [], os.path.join(HERE, 'corpus_peer.rs'))
        for places in lists:
            print('# ' + ' '.join(places))
            report(places, options)


def report(places, options):
    """Runs the files of some places, and prints what came of them."""
    found = sorted(files_of(places), key=lambda pair: pair[1])
    with ProcessPoolExecutor(options.jobs) as pool:
        cases = list(pool.map(functools.partial(case_of, options), found, chunksize=16))
    accepted = [c for c in cases if c.outcome == 'accepted']
    refused = [c for c in cases if c.outcome == 'refused']
    print('%d files, %d lines' % (len(cases), sum(c.lines for c in cases)))
    print('%d accepted, %d refused' % (len(accepted), len(refused)))
    print('%d outputs are accepted and their own output' % sum(c.own for c in accepted))
    for c in accepted:
        if not c.own:
            print('  NOT ITS OWN OUTPUT: ' + c.name)
    for c in cases:
        if c.outcome not in ('accepted', 'refused'):
            print('  %s: %s%s' % (c.outcome.upper(), c.name, ' (the peer: %s)' % c.peer if c.peer else ''))
    if options.peer:
        print('\nThe peer')
        for (here, there), count in sorted(collections.Counter((c.outcome, c.peer) for c in cases).items()):
            print('  here %s, there %s: %d' % (here, there, count))
        for c in accepted:
            if c.peer != 'accepted' and options.all:
                print('    accepted here alone: ' + c.name)
    print('\nRefused, by form' + (' (of which the peer accepts)' if options.peer else ''))
    forms = collections.defaultdict(list)
    for c in refused:
        forms[c.fault[0]].append(c)
    for form in sorted(forms, key=lambda f: (f == 'other', -len(forms[f]), f)):
        them = forms[form]
        taken = ' (%d)' % sum(c.peer == 'accepted' for c in them) if options.peer else ''
        print('  %4d%s %s' % (len(them), taken, form))
        for c in them:
            if options.all or form == 'other' and c.peer != 'refused':
                mark = '+ ' if c.peer == 'accepted' else ''
                print('         %s%s:%s: %s | %s' % (mark, c.name, c.fault[1], c.fault[2], c.fault[3]))
    if options.peer:
        both = [c for c in accepted if c.peer == 'accepted']
        print('\nThe tokens of the output are those of the peer\'s tree: %d of %d files that both accept'
              % (sum(not c.differences for c in both), len(both)))
        departures('there', [(c.name, c.differences) for c in both], options.all)
        print('\nThe tokens of the output are those of the text: %d of %d files that are accepted'
              % (sum(not c.changes for c in accepted), len(accepted)))
        departures('text', [(c.name, c.changes) for c in accepted], options.all)


def departures(other, lists, everything):
    """Prints what (name, differences) lists say, by departure: an example of each, and all of `other`."""
    found = collections.defaultdict(list)
    for name, differences in lists:
        for departure, theirs, ours in differences:
            found[departure].append((name, theirs, ours))
    for departure in sorted(found, key=lambda d: (d == 'other', -len(found[d]), d)):
        them = found[departure]
        print('  %5d in %d files: %s' % (len(them), len({name for name, _, _ in them}), departure))
        for name, theirs, ours in them if departure == 'other' or everything else them[:1]:
            print('          %s\n            %-6s%s\n            here  %s' % (name, other, theirs, ours))


if __name__ == '__main__':
    main()
