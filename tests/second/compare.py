#!/usr/bin/env python3
"""Compares the program canon with the second implementation.

  compare.py CANON [SECONDS [SEED]]   the stored texts, and then random ones for so many seconds (20, seed 1)

Of each text: whether it is accepted, the output, that the output is accepted and is its own output, and the place of a
lexical fault; a syntax fault is said of a place where a token stands. Of stored texts and of lists of items also the
outline. Each difference is printed; the status is 1 if there was one. The same seed makes the same texts in the same
order.
"""
import sys
import threading
import time

sys.dont_write_bytecode = True
from lexer import lex
from outline import outline, place_of
from program import ACCEPTED, AT_FAULT, Program
from second import Answer, answer
from stored import stored_texts
from texts import Maker
from tokens import GROUP

LEXICAL = 'canon: lexical fault at '
SYNTAX = 'canon: syntax fault at '
AT_THE_END = SYNTAX + 'end of input: '
BROKEN = 'broken'


def token_places(text):
    """Where tokens stand, and closing delimiters."""
    out, lists = set(), [lex(text)]
    while lists:
        for token in lists.pop():
            out.add(place_of(text, token.place))
            if token.kind == GROUP:
                out.add(place_of(text, token.end))
                lists.append(token.inside)
    return out


def answered(text):
    """The second implementation's answer: where it breaks, that is a difference, too."""
    try:
        return answer(text)
    except Exception as fault:  # whatever it is, the text is worth being seen
        return Answer(BROKEN, wanted=repr(fault))


class Comparison:
    """Texts that were compared so far, how many were accepted, and how many differ."""

    def __init__(self, program):
        self.program = program
        self.texts = 0
        self.accepted = 0
        self.differences = 0

    def report(self, text, what, second, program):
        print(f'{what}: {text!r}\n   second {second}\n   canon  {program}', flush=True)

    def text(self, text, has_outline):
        """Compares one text; answers whether it is accepted by both."""
        self.texts += 1
        ours = answered(text)
        theirs = self.program.ask(text)
        found = self.difference(text, ours, theirs)
        if found is None and has_outline:
            found = self.outline_difference(text, ours, theirs)
        if found is not None:
            self.differences += 1
            self.report(text, *found)
        is_accepted = found is None and ours.kind == 'accepted'
        self.accepted += is_accepted
        return is_accepted

    def difference(self, text, ours, theirs):
        """What differs, with both answers, or None."""
        status, output, fault = theirs
        said = output.rstrip('\n') if status == ACCEPTED else f'status {status}: {fault.strip()}'
        if status not in (ACCEPTED, AT_FAULT) or ours.kind == BROKEN:
            return 'no answer', ours, said
        if (ours.kind == 'accepted') != (status == ACCEPTED):
            return 'accepted by one', ours, said
        if status == ACCEPTED:
            return self.output_difference(ours, output)
        if output:
            return 'output of a fault', ours, output
        return self.fault_difference(text, ours, fault)

    def output_difference(self, ours, output):
        if output != ours.output + '\n':
            return 'outputs', ours, output.rstrip('\n')
        again = self.program.ask(ours.output)
        return None if again == (ACCEPTED, output, '') else ('output of the output', ours, again)

    def fault_difference(self, text, ours, fault):
        """A lexical fault has one place. Where a syntax fault is, no rule in words says, but a token stands there."""
        if ours.kind == 'lexical':
            wanted = f'{LEXICAL}{place_of(text, ours.place)}\n'
            return None if fault == wanted else ('lexical faults', wanted.strip(), fault.strip())
        if not fault.startswith(SYNTAX):
            return 'kinds of fault', ours, fault.strip()
        is_token = fault.startswith(AT_THE_END) or fault[len(SYNTAX):].split(': ')[0] in token_places(text)
        return None if is_token else ('no token there', ours, fault.strip())

    def outline_difference(self, text, ours, theirs):
        """An outline is refused as the text is."""
        status, lines, fault = self.program.ask(text, 'outline')
        wanted = (ACCEPTED, outline(text), '') if ours.kind == 'accepted' else theirs
        return None if (status, lines, fault) == wanted else ('outlines', wanted, (status, lines, fault))


def compare(path, seconds, seed):
    comparison = Comparison(Program(path))
    stored = stored_texts()
    for text in stored:
        comparison.text(text, True)
    maker = Maker(seed, stored)
    end = time.monotonic() + seconds
    while time.monotonic() < end:
        text, has_outline = maker.text()
        if comparison.text(text, has_outline):
            maker.keep(text)
    print(f'{comparison.texts} texts ({len(stored)} stored, the others of seed {seed}), '
          f'{comparison.accepted} accepted, {comparison.differences} differences')
    return 1 if comparison.differences else 0


def main(arguments):
    if not 1 <= len(arguments) <= 3:
        print(__doc__)
        return 2
    seconds = float(arguments[1]) if len(arguments) > 1 else 20
    return compare(arguments[0], seconds, int(arguments[2]) if len(arguments) > 2 else 1)


def deeply(run, *arguments):
    """Runs with a deep stack: a parser goes as deep as its text."""
    sys.setrecursionlimit(100000)
    threading.stack_size(512 * 1024 * 1024)
    status = []
    thread = threading.Thread(target=lambda: status.append(run(*arguments)))
    thread.start()
    thread.join()
    return status[0] if status else 1


if __name__ == '__main__':
    sys.exit(deeply(main, sys.argv[1:]))
