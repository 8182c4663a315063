#!/usr/bin/env python3
"""Scripts with the words of lines `options`, and no such line: `words.py FOLDER N [SEED]` writes N of them into the folder.

Each is a random script (scripts.py) of two ends that are configured alike, into which these words are put at random: behind `pair` on its
line, on other lines, on lines of their own, and as lines `options` that don't stand behind the pair or aren't of their form. So each line is
what it would be in a language without lines `options`. The same seed gives the same bytes.
"""

import random
import sys

import model
import scripts

OPTIONS = [name.decode() for name in scripts.Maker.names]
NEAR = ('option', 'Options', 'options:', 'both', 'A', 'B', 'limits', 'streams=3', 'Delay', 'standard', 'closing', 'standard_closing', '--delay')


class Words:
    """The lines of a script, and the words put into them."""

    def __init__(self, seed):
        self.random = random.Random('words %d' % seed)
        self.maker = scripts.Maker(self.random.randrange(2**32), 0)
        self.lines = self.maker.make().split('\n')

    def pick(self, things):
        return self.random.choice(list(things))

    def make(self):
        if self.random.random() < 0.7:
            self.lines = self.lines[:self.pick((3, 10, 40, len(self.lines)))]
        for _ in range(self.pick((1, 1, 2, 5))):
            plain = list(self.lines)
            self.pick((self.of_pair, self.beside, self.in_place, self.alone, self.wrong, self.elsewhere, self.remark, self.remark))()
            if self.has_options():
                self.lines = plain
        return '\n'.join(self.lines).encode()

    def has_options(self):
        """Whether a line `options` of its form stands behind the pair, but for comments and empty lines."""
        is_behind = False
        for line in self.lines:
            first, *words = line.split(' ')
            if first == 'pair':
                is_behind = True
            elif first == 'options' and is_behind and model.split_options([word.encode() for word in words]):
                return True
            elif line and not line.startswith('#'):
                is_behind = False
        return False

    # ---- Words ----

    def word(self):
        return self.pick(('options', *OPTIONS, *OPTIONS, *NEAR))

    def option(self):
        """An option with words of its own, mostly right."""
        name = self.pick(OPTIONS)
        values = {'limit': ('600',), 'fragment': ('500',), 'buffer': ('70000',), 'streams': ('3', '7'), 'mode': ('idata-pr',)}.get(name, ())
        return [name, *(value if self.random.random() < 0.9 else self.word() for value in values)]

    def options(self):
        return ['options', self.pick(('A', 'B', 'both')), *self.option(), *self.pick(((), self.option()))]

    def pair_at(self):
        return next((at for at, line in enumerate(self.lines) if line.startswith('pair ')), 0)

    def changed(self, at, words):
        self.lines[at] = ' '.join(words)

    def of_pair(self):
        """More words on the line of the pair, or one in place of another."""
        at = self.pair_at()
        words = self.lines[at].split(' ')
        if self.random.random() < 0.3:
            words[self.random.randrange(len(words))] = self.word()
        else:
            words += self.pick((self.option(), [self.word()], ['delay', *self.option()], self.options()))
        self.changed(at, words)

    def beside(self):
        """A word more on some line."""
        at = self.random.randrange(len(self.lines))
        words = self.lines[at].split(' ')
        words.insert(self.random.randrange(len(words) + 1), self.word())
        self.changed(at, words)

    def in_place(self):
        """A word in place of another, the command too."""
        at = self.random.randrange(len(self.lines))
        words = self.lines[at].split(' ')
        words[self.random.randrange(len(words))] = self.word()
        self.changed(at, words)

    # ---- Lines ----

    def put(self, at, words):
        self.lines.insert(at, ' '.join(words))

    def somewhere(self):
        return self.random.randrange(len(self.lines) + 1)

    def alone(self):
        """A line of such words, the first of which is no command."""
        self.put(self.somewhere(), self.pick((self.option(), [self.word(), self.word()], [self.word()], [self.pick('AB'), *self.option()],
                                              ['reset', self.pick('AB'), self.pick('01')], ['resets', self.pick('AB')],
                                              ['later', self.pick('AB'), self.pick('01')], ['moment', self.pick('AB')])))

    def wrong(self):
        """A line `options` behind the pair, not of its form."""
        words = self.options()
        self.pick((lambda: words.pop(1), lambda: words.append(self.word()), lambda: words.append(''), lambda: words.insert(2, ''),
                   lambda: words.insert(0, ''), lambda: words.__setitem__(1, self.pick(('a', 'C', 'AB', 'Both', '', 'A,B'))),
                   lambda: words.__setitem__(2, words[2].upper()), lambda: words.__setitem__(0, self.pick(('option', 'OPTIONS', 'options\t')))))()
        self.put(self.pair_at() + 1, words)

    def elsewhere(self):
        """A line `options` of its form, before the pair or behind another line."""
        self.put(self.somewhere(), self.options())

    def remark(self):
        """A comment with such words, which does nothing."""
        self.put(self.somewhere(), [self.pick(('#', '#options', '# options')), *self.options()[1:]])


def script(seed):
    return Words(seed).make()


if __name__ == '__main__':
    sys.exit(scripts.main(script))
