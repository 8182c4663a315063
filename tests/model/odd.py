#!/usr/bin/env python3
"""Scripts of odd bytes: `odd.py FOLDER N [SEED]` writes N of them into the folder.

Each is a random script (scripts.py) of which some bytes, words or lines were changed: most of them
have a fault, wherever it stands, and what comes before it still happens. The same seed gives the same bytes.
"""

import random
import sys

import scripts

LINE_LIMIT = 140_000
ODD_BYTES = (0, 1, 9, 10, 11, 12, 13, 32, 35, 39, 43, 45, 46, 47, 48, 57, 58, 65, 66, 95, 97, 103, 127, 128, 160, 194, 255)
# No UTF-8 at all, a character cut short, one that is written too long, half a pair, one beyond the last; and what is UTF-8:
# a byte order mark, a space that isn't ASCII, a digit that isn't.
ODD_TEXTS = (b'\xff', b'\xc3', b'\xc0\x80', b'\xed\xa0\x80', b'\xf4\x90\x80\x80', b'\xef\xbb\xbf', b'\xc2\xa0', b'\xd9\xa1')
NUMBERS = [str(n).encode() for top in (8, 16, 31, 32, 40, 63, 64, 65, 128) for n in (2**top - 1, 2**top, 2**top + 1)]
NUMBERS += [b'0', b'00', b'01', b'-0', b'-1', b'+1', b'1.0', b'1e3', b'0x1', b'1_0', b'9' * 19, b'9' * 20, b'9' * 21, b'1' + b'0' * 19,
            b'0' * 20 + b'1', b'9' * 1000, b'-', b'--', b'', b'\xd9\xa1', b'1\r', b'1\0', b'a', b'A']
COMMANDS = (b'pair', b'open', b'at', b'draw', b'connect', b'build', b'deliver', b'foreign', b'send', b'abandon', b'take', b'shutdown',
            b'abort', b'later', b'moment', b'reset', b'resets', b'report', b'Open', b'ope', b'opens', b'\xef\xbb\xbfopen')


class Odd:
    """The bytes of a script, and how they are changed."""

    def __init__(self, seed):
        self.random = random.Random('odd %d' % seed)
        self.data = scripts.script(self.random.randrange(2**32)).encode()

    def pick(self, things):
        return self.random.choice(things)

    def make(self):
        if self.random.random() < 0.02:
            return self.of_no_script()
        self.data = self.shortened()
        for _ in range(self.pick((1, 1, 1, 2, 4))):
            self.pick((self.change, self.change, self.put, self.cut, self.word, self.word, self.word, self.command, self.spaces,
                       self.double, self.leave_out, self.swap, self.join, self.split, self.lengthen, self.ends))()
        return self.data

    def of_no_script(self):
        size = self.pick((0, 1, 2, 30, 3000))
        return self.pick((b'', b'\n' * size, b'\r\n' * size, b'#' * size, b' ' * size, self.random.randbytes(size),
                          bytes(self.pick(ODD_BYTES) for _ in range(size))))

    def shortened(self):
        """The first lines, so that a fault is met early now and then, and the whole script otherwise."""
        lines = self.data.split(b'\n')
        return b'\n'.join(lines[:self.pick((3, 10, 40, len(lines)))])

    # ---- Bytes ----

    def place(self):
        return self.random.randrange(len(self.data) + 1)

    def put_at(self, place, new, old=0):
        self.data = self.data[:place] + new + self.data[place + old:]

    def change(self):
        """A byte is another one, or has one bit flipped."""
        place = self.place()
        if place == len(self.data):
            return
        flipped = self.data[place] ^ 1 << self.random.randrange(8)
        self.put_at(place, bytes([self.pick((flipped, self.pick(ODD_BYTES), self.random.randrange(256)))]), 1)

    def put(self):
        """More bytes, at a place, at the beginning or at the end."""
        place = self.pick((self.place(), self.place(), 0, len(self.data)))
        self.put_at(place, self.pick((bytes([self.pick(ODD_BYTES)]), self.pick(ODD_TEXTS))))

    def cut(self):
        """Some bytes are left out, or all from a place on."""
        self.put_at(self.place(), b'', self.pick((1, 1, 2, 9, len(self.data))))

    # ---- Words ----

    def line_changed(self, changed):
        lines = self.data.split(b'\n')
        at = self.random.randrange(len(lines))
        lines[at] = changed(lines[at])
        self.data = b'\n'.join(lines)

    def word(self):
        """A word is a number at some limit, or no number, or is gone, or stands twice."""
        def changed(line):
            words = line.split(b' ')
            at = self.random.randrange(len(words))
            words[at:at + 1] = self.pick(([self.pick(NUMBERS)], [self.pick(NUMBERS)], [], [words[at]] * 2, [words[at].swapcase()],
                                          [words[at] + self.pick(ODD_TEXTS + (b'\r', b'\0', b'0'))]))
            return b' '.join(words)
        self.line_changed(changed)

    def command(self):
        """A line has another command, with the words as they are."""
        self.line_changed(lambda line: b' '.join([self.pick(COMMANDS), *line.split(b' ')[1:]]))

    def spaces(self):
        """Other spaces: before or behind a line, two between words, a tab, a carriage return, none."""
        space = self.pick((b'  ', b'\t', b'\r', b'\x0b', b'\xc2\xa0', b'', b'\0'))
        self.line_changed(self.pick((lambda line: b' ' + line, lambda line: line + b' ', lambda line: line + b'\r',
                                     lambda line: line.replace(b' ', space, 1), lambda line: line.replace(b' ', space))))

    # ---- Lines ----

    def double(self):
        self.line_changed(lambda line: b'\n'.join([line] * self.pick((2, 2, 3, 50))))

    def leave_out(self):
        lines = self.data.split(b'\n')
        del lines[self.pick((0, self.random.randrange(len(lines))))]
        self.data = b'\n'.join(lines)

    def swap(self):
        lines = self.data.split(b'\n')
        a, b = self.random.randrange(len(lines)), self.random.randrange(len(lines))
        lines[a], lines[b] = lines[b], lines[a]
        self.data = b'\n'.join(lines)

    def join(self):
        """Two lines become one, with a byte or none between them."""
        at = self.data.find(b'\n', self.place())
        if at >= 0:
            self.put_at(at, self.pick((b'', b' ', b'\r', b'\0', b'\x0b', b'\xe2\x80\xa8')), 1)

    def split(self):
        self.put_at(self.place(), self.pick((b'\n', b'\n\n', b'\r\n', b'\n#')))

    def lengthen(self):
        """A line of the greatest length, of one byte more, or of many more: by spaces, zeros, digits of a message or a comment."""
        size = self.pick((LINE_LIMIT - 1, LINE_LIMIT, LINE_LIMIT, LINE_LIMIT + 1, LINE_LIMIT + 1, 2 * LINE_LIMIT, 300_000))
        fill = self.pick((b' ', b'0', b'61', b'a', b'\xff', b'\0', b'\r'))
        def changed(line):
            start = self.pick((line, line + b' ', b'#', b'abort A ', b'foreign B ', b'send A 0 o 0 - ', b'at ', b''))
            return (start + fill * size)[:size]
        self.line_changed(changed)

    def ends(self):
        """How the lines end: the last one with no LF or with several, all with CR and LF, with CR alone, with LF and CR."""
        kind = self.random.randrange(5)
        if kind == 0:
            self.data = self.data.rstrip(b'\n')
        elif kind == 1:
            self.data += b'\n' * self.pick((1, 2, 500))
        else:
            self.data = self.data.replace(b'\n', (b'\r\n', b'\r', b'\n\r')[kind - 2])


def script(seed):
    return Odd(seed).make()


if __name__ == '__main__':
    sys.exit(scripts.main(script))
