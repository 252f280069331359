"""Where literals end, and what numbers say.

Each `.._end` takes a text and the place where something would begin, and gives the place behind it, or None.
"""

DIGITS = frozenset('0123456789')
DIGITS_OR_BAR = DIGITS | {'_'}
HEX = frozenset('0123456789abcdefABCDEF')
SIMPLE_ESCAPES = frozenset('nrt\\\'"')
BASES = {'0x': 16, '0o': 8, '0b': 2}
# The openings of quoted literals with the kind of each; of those that begin another, the longer one is first.
COOKED = (('"', 'string'), ('b"', 'bytes'), ('c"', 'c string'))
RAW = (('br', 'bytes'), ('cr', 'c string'), ('r', 'string'))


def character(text, i):
    """The character at a place, or nothing at the end."""
    return text[i:i + 1]


def starts_word(c):
    return c == '_' or c.isidentifier()


def continues_word(c):
    return ('a' + c).isidentifier()


def run_end(text, i, allowed):
    """Behind the characters at a place that are of some set."""
    while i < len(text) and text[i] in allowed:
        i += 1
    return i


def word_end(text, i):
    """Behind the characters of a word at a place, or that place: a raw word's `r#` is none of them."""
    if i < len(text) and starts_word(text[i]):
        i += 1
        while i < len(text) and continues_word(text[i]):
            i += 1
    return i


def byte_escape_end(text, i, kind):
    r"""Behind `\x` and two hexadecimal digits: of a character no more than 7f, in a C string not 0."""
    digits = text[i + 2:i + 4]
    if len(digits) < 2 or not HEX.issuperset(digits):
        return None
    value = int(digits, 16)
    if kind in ('string', 'character') and value > 0x7f:
        return None
    return None if kind == 'c string' and value == 0 else i + 4


def unicode_escape_end(text, i, kind):
    r"""Behind `\u{..}`: at most six hexadecimal digits with `_` behind the first, and their value is a character."""
    if character(text, i + 2) != '{' or character(text, i + 3) not in HEX:
        return None
    end = run_end(text, i + 3, HEX | {'_'})
    digits = text[i + 3:end].replace('_', '')
    if character(text, end) != '}' or len(digits) > 6:
        return None
    value = int(digits, 16)
    if value > 0x10ffff or 0xd800 <= value <= 0xdfff or (kind == 'c string' and value == 0):
        return None
    return end + 1


def line_end_escape_end(text, i):
    r"""Behind `\`, a line end, and the spaces, tabs and line ends that follow; a carriage return stands before `\n`."""
    i += 1
    while True:
        if character(text, i) in {' ', '\t', '\n'}:
            i += 1
        elif text.startswith('\r\n', i):
            i += 2
        else:
            return i


def escape_end(text, i, kind):
    """Behind an escape, whose backslash stands at i, in a literal of some kind."""
    c = character(text, i + 1)
    if c in SIMPLE_ESCAPES:
        return i + 2
    if c == '0':
        return None if kind == 'c string' else i + 2
    if c == 'x':
        return byte_escape_end(text, i, kind)
    if c == 'u' and kind in ('string', 'character', 'c string'):
        return unicode_escape_end(text, i, kind)
    if kind in ('string', 'bytes', 'c string') and (c == '\n' or text.startswith('\r\n', i + 1)):
        return line_end_escape_end(text, i)
    return None


def may_stand(text, i, kind):
    """Whether the character at i may stand in a literal as it is."""
    c = text[i]
    if c == '\r':
        return character(text, i + 1) == '\n'
    if kind == 'bytes':
        return ord(c) < 0x80
    return kind != 'c string' or c != '\0'


def cooked_end(text, i, kind):
    """Behind the closing quote of a literal with escapes, whose inside begins at i."""
    while i is not None and i < len(text):
        if text[i] == '"':
            return i + 1
        if text[i] == '\\':
            i = escape_end(text, i, kind)
        elif may_stand(text, i, kind):
            i += 1
        else:
            return None
    return None


def raw_end(text, i, kind):
    """Behind a raw literal, of whose `#` and quote the first stands at i: at most 255 `#`."""
    quote = run_end(text, i, {'#'})
    if quote - i > 255 or character(text, quote) != '"':
        return None
    closing = '"' + text[i:quote]
    i = quote + 1
    while i < len(text):
        if text.startswith(closing, i):
            return i + len(closing)
        if not may_stand(text, i, kind):
            return None
        i += 1
    return None


def single_end(text, i, kind):
    """Behind the closing quote of a character or a byte, whose inside begins at i."""
    c = character(text, i)
    if c == '\\':
        i = escape_end(text, i, kind)
    elif c == '' or (kind == 'byte' and ord(c) > 0x7f):
        return None
    else:
        i += 1
    return i + 1 if i is not None and character(text, i) == "'" else None


def quoted_end(text, i):
    """Behind a quoted literal, without its suffix."""
    for opening, kind in COOKED:
        if text.startswith(opening, i):
            return cooked_end(text, i + len(opening), kind)
    for opening, kind in RAW:
        if text.startswith(opening, i) and character(text, i + len(opening)) in {'"', '#'}:
            return raw_end(text, i + len(opening), kind)
    if text.startswith("b'", i):
        return single_end(text, i + 2, 'byte')
    return single_end(text, i + 1, 'character') if character(text, i) == "'" else None


def exponent_end(text, i):
    """Behind `e` or `E`, a sign that may be missing, and digits, with `_` wherever."""
    if character(text, i) not in {'e', 'E'}:
        return None
    i = run_end(text, i + 1, {'_'})
    if character(text, i) in {'+', '-'}:
        i = run_end(text, i + 1, {'_'})
    return run_end(text, i, DIGITS_OR_BAR) if character(text, i) in DIGITS else None


def fraction_end(text, i):
    """Behind a dot and digits: the dot stands before no other dot and before no word."""
    following = character(text, i + 1)
    if character(text, i) != '.' or following == '.' or (following and starts_word(following)):
        return None
    return run_end(text, i + 1, DIGITS_OR_BAR)


def integer_end(text, i):
    """Behind an integer's digits, of which there is one at least, each less than the base."""
    base = BASES.get(text[i:i + 2], 10)
    start = i if base == 10 else i + 2
    end = run_end(text, start, HEX | {'_'} if base == 16 else DIGITS_OR_BAR)
    digits = text[start:end].replace('_', '')
    if not digits or (base < 10 and any(int(digit) >= base for digit in digits)):
        return None
    return end


def number_end(text, i):
    """Behind a number, without its suffix: a float if a fraction or an exponent follows its decimal digits."""
    if character(text, i) not in DIGITS:
        return None
    end = run_end(text, i, DIGITS_OR_BAR)
    fraction = fraction_end(text, end)
    exponent = exponent_end(text, end if fraction is None else fraction)
    if exponent is not None:
        return exponent
    return integer_end(text, i) if fraction is None else fraction


def literal_end(text, i):
    """Behind a literal with its suffix, which is a word."""
    end = quoted_end(text, i)
    if end is None:
        end = number_end(text, i)
    return None if end is None else word_end(text, end)


def is_string(text):
    """Whether a literal is a string, raw ones too."""
    return text[0] == '"' or text.startswith('r"') or text.startswith('r#')


def is_float(text):
    """Whether a literal is a number with a dot or an exponent."""
    if text[0] not in DIGITS:
        return False
    end = run_end(text, 0, DIGITS_OR_BAR)
    return character(text, end) == '.' or exponent_end(text, end) is not None


def index_value(text):
    """The value of an index: digits of a base without suffix, less than 2^32; None if it is none."""
    if character(text, 0) not in DIGITS:
        return None
    base = BASES.get(text[:2], 10)
    digits = (text if base == 10 else text[2:]).replace('_', '')
    if not digits or not (HEX if base == 16 else DIGITS).issuperset(digits):
        return None
    value = int(digits, base)
    return value if value < 2 ** 32 else None
