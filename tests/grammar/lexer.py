"""Tokens of a text, and the text of tokens, by the lexical rules of docs/maintainers/DEFINITIONS.md, written again by
hand.

A token is a tuple as the definitions have it, and behind its fields the place where it begins, in characters.
"""
import re
import unicodedata

from antt import chain, items_of, text_of

MARKS = set("~!@#$%^&*-=+|;:,<.>/?'")
OPENING = {'(': 'Parenthesis', '{': 'Brace', '[': 'Bracket'}
CLOSING = {')': 'Parenthesis', '}': 'Brace', ']': 'Bracket'}
# No text has these: they stand round an operand of an expression that is built by hand.
BUILT = {'‹': 'Opens', '›': 'Closes'}
WHITE = set('\t\n\x0b\x0c\r \x85\u200e\u200f\u2028\u2029\xa0\u1680\u202f\u205f\u3000')
WHITE |= {chr(c) for c in range(0x2000, 0x200b)}


class Lexical(Exception):
    """No piece begins at a place."""

    def __init__(self, place):
        super().__init__(place)
        self.place = place


def is_start(c):
    return c == '_' or c.isidentifier()


def is_more(c):
    return ('a' + c).isidentifier()


def word_end(s, i):
    """Behind the characters of an identifier at i, or i."""
    if i < len(s) and is_start(s[i]):
        i += 1
        while i < len(s) and is_more(s[i]):
            i += 1
    return i


def is_comment(s, i):
    return s.startswith('//', i) or s.startswith('/*', i)


HEX = '[0-9a-fA-F]'
U = r'\\u\{%s(?:_*%s){0,5}_*\}' % (HEX, HEX)
SKIP = r'\\(?:\r?\n)\s*'
STRING = re.compile(r'"(?:[^"\\\r]|\r\n|\\[nrt0\\\'"]|\\x[0-7]%s|%s|%s)*"' % (HEX, U, SKIP))
BYTES = re.compile(r'b"(?:[^"\\\r\u0080-\U0010ffff]|\r\n|\\[nrt0\\\'"]|\\x%s%s|%s)*"' % (HEX, HEX, SKIP))
CSTRING = re.compile(r'c"(?:[^"\\\r\0]|\r\n|\\[nrt\\\'"]|\\x(?!00)%s%s|(?!\\u\{0[0_]*\})%s|%s)*"' % (HEX, HEX, U, SKIP))
CHARACTER = re.compile(r"'(?:[^\\]|\\[nrt0\\'\"]|\\x[0-7]%s|%s)'" % (HEX, U), re.S)
BYTE = re.compile(r"b'(?:[^\\\u0080-\U0010ffff]|\\[nrt0\\'\"]|\\x%s%s)'" % (HEX, HEX), re.S)
RAW = re.compile(r'(b|c|)r(#{0,255})"')


def is_character(s, i):
    return CHARACTER.match(s, i) is not None


def quoted_end(s, i):
    """Behind a quoted literal at i, without its suffix, or None."""
    m = RAW.match(s, i)
    if m:
        end = s.find('"' + m[2], m.end())
        inside = s[m.end():end] if end >= 0 else ''
        if end < 0 or re.search('\r(?!\n)', inside):
            return None
        if (m[1] == 'b' and not inside.isascii()) or (m[1] == 'c' and '\0' in inside):
            return None
        return end + 1 + len(m[2])
    for pattern in (STRING, BYTES, CSTRING, BYTE, CHARACTER):
        m = pattern.match(s, i)
        if m:
            return m.end()
    return None


def number_end(s, i):
    """Behind a number's digits at i, or None where it is malformed."""
    n = len(s)
    digits = lambda j, allowed: next((k for k in range(j, n) if s[k] not in allowed), n)
    j = digits(i, '0123456789_')
    dot = j < n and s[j] == '.' and not (j + 1 < n and (s[j + 1] == '.' or is_start(s[j + 1])))
    if dot:
        j = digits(j + 1, '0123456789_')
    exponent = re.compile(r'[eE]_*[+-]?_*[0-9][0-9_]*').match(s, j)
    if exponent:
        return exponent.end()
    if dot:
        return j
    base = {'0x': 16, '0o': 8, '0b': 2}.get(s[i:i + 2], 10)
    allowed = '0123456789_' + ('abcdefABCDEF' if base == 16 else '')
    j = digits(i if base == 10 else i + 2, allowed)
    inside = s[i if base == 10 else i + 2:j]
    if not inside.strip('_') or any(c.isdigit() and int(c) >= base for c in inside):
        return None
    return j


def escaped(text):
    """A string literal of a text."""
    out = ['"']
    for i, c in enumerate(text):
        if c in '\t\r\n"\\':
            out.append({'\t': r'\t', '\r': r'\r', '\n': r'\n', '"': r'\"', '\\': r'\\'}[c])
        elif c == '\0':
            out.append(r'\x00' if text[i + 1:i + 2] in list('01234567') else r'\0')
        elif (ord(c) < 0x20 or c == '\x7f') or (ord(c) > 0x7f and unicodedata.category(c) in
                                               ('Cc', 'Cf', 'Cn', 'Co', 'Mn', 'Me', 'Zl', 'Zp', 'Zs')):
            out.append('\\u{%x}' % ord(c))
        else:
            out.append(c)
    return ''.join(out) + '"'


def block_end(s, i):
    depth, j = 0, i
    while j < len(s):
        if s.startswith('/*', j):
            depth, j = depth + 1, j + 2
        elif s.startswith('*/', j):
            depth, j = depth - 1, j + 2
            if not depth:
                return j
        else:
            j += 1
    raise Lexical(i)


ALONE, JOINT = ('Alone',), ('Joint',)


def doc_tokens(inner, text, i):
    if re.search('\r(?!\n)', text):
        raise Lexical(i)
    out = [('Punct', ord('#'), ALONE, i)]
    if inner:
        out.append(('Punct', ord('!'), ALONE, i))
    return out + [('Opens', ('Bracket',), i), ('Ident', text_of('doc'), i), ('Punct', ord('='), ALONE, i),
                  ('Literal', text_of(escaped(text)), i), ('Closes', ('Bracket',), i)]


def shebang_end(s):
    """Behind a text's shebang: its first line, which begins with `#!` and white characters, if there stands one that is
    no `[` and begins no comment. Where it has none, 0."""
    start = 1 if s.startswith('\ufeff') else 0
    end = s.find('\n', start)
    end = len(s) if end < 0 else end
    i = start + 2
    while i < end and s[i] in WHITE:
        i += 1
    return end if s.startswith('#!', start) and i < end and s[i] != '[' and not is_comment(s, i) else 0


def lex(s):
    """A text's tokens; Lexical where it has none."""
    out, open_groups, i = [], [], 1 if s.startswith('\ufeff') else 0
    while i < len(s):
        c = s[i]
        if c in WHITE:
            i += 1
        elif s.startswith('//', i):
            j = s.find('\n', i)
            j = len(s) if j < 0 else j
            doc = (s.startswith('///', i) and not s.startswith('////', i)) or s.startswith('//!', i)
            if doc:
                j -= s[j - 1] == '\r' and j < len(s)
                out += doc_tokens(s[i + 2] == '!', s[i + 3:j], i)
            i = j
        elif s.startswith('/*', i):
            j = block_end(s, i)
            outer = s.startswith('/**', i) and not s.startswith('/***', i) and not s.startswith('/**/', i)
            if outer or s.startswith('/*!', i):
                out += doc_tokens(s[i + 2] == '!', s[i + 3:j - 2], i)
            i = j
        elif c in BUILT:
            out.append((BUILT[c], ('None',), i))
            i += 1
        elif c in OPENING:
            out.append(('Opens', (OPENING[c],), i))
            open_groups.append((c, i))
            i += 1
        elif c in CLOSING:
            if not open_groups or OPENING[open_groups.pop()[0]] != CLOSING[c]:
                raise Lexical(i)
            out.append(('Closes', (CLOSING[c],), i))
            i += 1
        else:
            i = leaf(s, i, out)
    if open_groups:
        raise Lexical(open_groups[-1][1])
    return out


def leaf(s, i, out):
    """A literal, a mark or an identifier."""
    end = number_end(s, i) if s[i] in '0123456789' else quoted_end(s, i)
    if end is not None:
        j = word_end(s, end)
        out.append(('Literal', text_of(s[i:j]), i))
        return j
    if s[i] in '0123456789':
        raise Lexical(i)
    if s[i] == "'":
        raw = s.startswith('r#', i + 1) and word_end(s, i + 3) > i + 3
        j = word_end(s, i + 3 if raw else i + 1)
        if j == i + 1 or s.startswith("'", j) or (s.startswith('#', j) and not raw):
            raise Lexical(i)
        out.append(('Punct', 39, JOINT, i))
        return i + 1
    if s[i] in MARKS:
        n = s[i + 1:i + 2]
        joint = n in MARKS and n != '' and not is_comment(s, i + 1)
        out.append(('Punct', ord(s[i]), JOINT if joint else ALONE, i))
        return i + 1
    if s.startswith('r#', i):
        j = word_end(s, i + 2)
        if j == i + 2 or s[i + 2:j] in ('_', 'super', 'self', 'Self', 'crate'):
            raise Lexical(i)
    else:
        j = word_end(s, i)
        if j == i or re.match(r'r"|b"|b\'|br"|br#|c"|cr"|cr#', s[i:i + 3]):
            raise Lexical(i)
    out.append(('Ident', text_of(s[i:j]), i))
    return j


def string(cs):
    return ''.join(map(chr, items_of(cs)))


def text(tokens):
    """What is printed for tokens: trees one space apart, but behind a joint mark."""
    out, space = [], False
    for t in tokens:
        if t[0] == 'Closes':
            out.append({'Parenthesis': ')', 'Brace': ' }', 'Bracket': ']'}.get(t[1][0], ''))
            space = True
            continue
        if space:
            out.append(' ')
        if t[0] == 'Opens':
            out.append({'Parenthesis': '(', 'Brace': '{', 'Bracket': '['}.get(t[1][0], ''))
            space = t[1][0] == 'Brace'
        else:
            out.append(chr(t[1]) if t[0] == 'Punct' else string(t[1]))
            space = t[0] != 'Punct' or t[2] == ALONE
    return ''.join(out)


def tokens_of(source):
    return chain(lex(source))
