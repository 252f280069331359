#!/usr/bin/env python3
"""Measures how deep a text may nest: of each shape up to how many turns a program writes the canonical form, and the
outline, with 8 MiB of stack. Prints a row for each shape. A run may end well or by a signal, and nothing else.

Usage: bench/depth.py PROGRAM [MOST [SHAPE..]]   of a built `canon`; up to 200,000 turns, of all shapes"""

import resource
import signal
import subprocess
import sys

STACK = 8 << 20


def function(front, turn, back, behind=''):
    """A function whose body is so many turns, and what stands before, between and behind them."""
    return lambda n: 'fn f(){' + front + turn * n + back + behind * n + '}'


def alias(turn, back, behind=''):
    """An alias of a type of so many turns."""
    return lambda n: 'type A=' + turn * n + back + behind * n + ';'


SHAPES = {
    'a + a': function('a', '+a', ''),
    'a.b().b()': function('a', '.b()', ''),
    'else if': function('if a{}', 'else if a{}', ''),
    'a::a': function('', 'a::', 'a'),
    'a@a@b': function('let ', 'a@', 'a=b;'),
    '& & u8': alias('& ', 'u8'),
    'F()->F()->u8': alias('F()->', 'u8'),
    '- - a': function('', '- ', 'a'),
    '! ! a': function('', '! ', 'a'),
    '& & a': function('', '& ', 'a'),
    '|a| |a| a': function('', '|a|', 'a'),
    'return return a': function('', 'return ', 'a'),
    'a = a': function('a', '=a', ''),
    'mod a{mod a{}}': lambda n: 'mod a{' * n + '}' * n,
    'fn f(){fn f(){}}': lambda n: 'fn f(){' * n + '}' * n,
    'use {{a}}': lambda n: 'use ' + '{' * n + 'a' + '}' * n + ';',
    '((u8,),)': alias('(', 'u8', ',)'),
    'let ((a,),)': lambda n: 'fn f(){let ' + '(' * n + 'a' + ',)' * n + '=b;}',
    '((a))': function('', '(', 'a', ')'),
    'A<A<u8>>': alias('A<', 'u8', '>'),
    '{{a}}': function('', '{', 'a', '}'),
    'f(f(a))': function('', 'f(', 'a', ')'),
    'if a{if a{}}': function('', 'if a{', '', '}'),
    'Box<dyn A<Box<dyn A<u8>>>>': alias('Box<dyn A<', 'u8', '>>'),
}


def ends_well(program, words, text):
    """Whether the program ends well on the text, and not for want of stack."""
    hard = resource.getrlimit(resource.RLIMIT_STACK)[1]
    ran = subprocess.run([program, *words], input=text.encode(), stdout=subprocess.DEVNULL, stderr=subprocess.PIPE,
                         preexec_fn=lambda: resource.setrlimit(resource.RLIMIT_STACK, (STACK, hard)))
    if ran.returncode not in (0, -signal.SIGSEGV):
        raise SystemExit(f'status {ran.returncode}: {ran.stderr.decode(errors="replace")[:200]}')
    return ran.returncode == 0


def deepest(program, words, shape, most):
    """Up to how many turns it does, to a hundredth; none if it does with the most that are tried."""
    if ends_well(program, words, shape(most)):
        return None
    fits, fails = 0, most
    while fails - fits > max(10, fits // 100):
        middle = (fits + fails) // 2
        if ends_well(program, words, shape(middle)):
            fits = middle
        else:
            fails = middle
    return fits


def main():
    if len(sys.argv) < 2:
        sys.exit(__doc__)
    program, most = sys.argv[1], int(sys.argv[2]) if len(sys.argv) > 2 else 200_000
    print('| Shape | this | its outline |\n|---|---|---|')
    for name in sys.argv[3:] or SHAPES:
        found = [deepest(program, words, SHAPES[name], most) for words in ([], ['outline'])]
        cells = [f'more than {most:,}' if n is None else f'{n:,}' for n in found]
        print(f'| {name} | {" | ".join(cells)} |', flush=True)


main()
