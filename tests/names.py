#!/usr/bin/env python3
"""The rules of tests/names.sh: what the pages name is there.

In backticks stands
- a path, if it has a slash or the ending of a file: some file or folder of the tree ends so, with or without its ending, or a `.gitignore`
  names it. In docs/proofs/CRATE.md a file of code, and what begins with src/, specs/, proofs/ or a folder of edits, is of that crate or of
  a crate that the line names;
- a command, if its first word is a file of the tree or a tool: so each command of a line begins; the folder that it goes to and the file of
  the tree that it reads are there, and the tree's sources have the words of its options;
- else names: each of its words stands somewhere in the tree outside the pages. A word with `_` or a capital inside stands in code, in a
  definition or in a file's name, not in comments alone; in docs/proofs/CRATE.md it does so in that crate, in one that it stands on, or in
  one that the line names. The parts of `A::b` and `A.b` stand in one file, whose path counts; a function `b` of an `A` is defined there, or
  some file says `A::b`. Of a name that begins with `_`, `x_` or an X for the rest, or that ends with `_`, some name has that part.
Left out is what is no name: a letter, words in capitals and digits alone (they stand for a value), bytes and sums in hexadecimal digits,
numbers, signs, and what is in quotes.
A block ```sh is commands. A block ```rust is, piece by piece, in the file that the line above it names, `..` alone between two pieces. Of
other blocks and of the text the names of crates, the pages and the links are looked up.

Figures of tests/figures.txt are on each page what they are on their owner (tests/figures.py).

Beside the names, or alone with --words: the words of tests/words.txt, which pages, the header for C, public comments and the comments of the
definitions and of their proofs don't use, are looked for in all of these."""

import os
import re
import sys

import figures

SHELL = {'[', 'cat', 'diff', 'do', 'done', 'echo', 'export', 'for', 'git', 'printf', 'read', 'sed', 'while'}
TOOLS = {'cargo', 'cc', 'chromium', 'gdb', 'jq', 'ldconfig', 'nproc', 'python3', 'rt', 'tar', 'text2pcap', 'tshark', 'valgrind', 'wireshark'}
RT = {'all', 'check', 'ci', 'doc', 'expand', 'fmt', 'lemma', 'lib', 'must-fail', 'new', 'plant', 'run', 'seed', 'test', 'tidy', 'try', 'verdict', 'version'}
# Names that stand in no file of the tree: of the C library, of the toolchain's line.
ALLOWED = {'kit', 'logic', 'malloc_consolidate'}
STD = {'Arc', 'Box', 'Option', 'Result', 'String', 'Vec', 'VecDeque'}
MOST_EXCEPTIONS = 60
ENDINGS = ('.antt', '.c', '.calls', '.edit', '.h', '.md', '.py', '.rattle', '.rs', '.rt', '.script', '.sh', '.toml', '.txt')
# Who believes the theorem reads these: each comment of theirs is looked at.
DEFINITIONS = ('crates/sctp_model/', 'crates/sctp_safety/', 'crates/sctp_outcomes/')
OF_A_CRATE = ('src/', 'specs/', 'proofs/', 'must-fail/', 'wrong-bodies.txt')
REMARK = {'.rt': r'//.*', '.rs': r'//.*', '.rattle': r'//.*', '.c': r'//.*', '.h': r'//.*', '.antt': r'--.*', '.py': r'(?m)^\s*#.*', '.sh': r'(?m)^\s*#.*'}
NO_SOURCE = ('tests/names.py', 'tests/names.sh', 'tests/words.txt', 'tests/figures.txt')
NO_SOURCES = ('.git', 'out', 'target', '__pycache__')

WORD = re.compile(r'[A-Za-z_][A-Za-z0-9_]*')
PATH = re.compile(r'[A-Za-z0-9_./*-]+')
HEXADECIMAL = re.compile(r'\b[0-9a-f]*[0-9][0-9a-f]*\b|\b(?:[0-9a-f]{2}){2,}\b')
QUOTED = re.compile(r'"[^"]*"|\'[^\']*\'')
VALUE = re.compile(r'[a-z]?[A-Z0-9-]+')
# In a path a word in capitals stands for any part, and so does Name.
ANY_PART = re.compile(r'\\\*|\bName\b|\b[A-Z][A-Z]+\b')


class Tree:
    """What there is: the paths, and the words of each file that is no page."""

    def __init__(self):
        self.pages, self.folders, self.made, self.code, self.said = [], set(), set(), {}, set()
        for folder, below, names in os.walk('.'):
            below[:] = sorted(name for name in below if name not in NO_SOURCES)
            self.folders.add(os.path.relpath(folder))
            for name in sorted(names):
                self.add(os.path.normpath(os.path.join(folder, name)))
        self.all_code = set().union(*self.code.values())
        self.stands = crates()
        self.ends = {}
        for path in [*self.code, *self.pages, *self.folders, *self.made]:
            for end in {path, os.path.splitext(path)[0]}:
                for at in range(end.count('/') + 1):
                    self.ends.setdefault(end.split('/', at)[-1], []).append(path)

    def add(self, path):
        """A file: a page, or one with names. An edit has its own name alone, a list of mutants the names of its entries."""
        stem, ending = os.path.splitext(path)
        if ending == '.md':
            self.pages.append(path)
            return
        text = '' if ending == '.edit' or path in NO_SOURCE else text_of(path)
        if path.endswith('wrong-bodies.txt'):
            text = ' '.join(entry.split('\n')[0].replace(' ', '_') for entry in text.split('\n\n'))
        if path.endswith('.gitignore'):
            self.made |= {os.path.join(os.path.dirname(path), line.rstrip('/')) for line in text.split()}
        words = set(WORD.findall(path)) | {os.path.basename(stem)}
        self.said |= words | set(WORD.findall(text))
        self.code[path] = words | set(WORD.findall(re.sub(REMARK.get(ending, '$^'), '', text)))

    def found(self, path):
        """The files and folders that end so."""
        end = re.sub(r'^\./', '', path).rstrip('/')
        pattern = ANY_PART.sub('[^/]*', re.escape(end).replace(r'\-', '-'))
        if end in self.ends or '[^/]*' not in pattern:
            return self.ends.get(end, [])
        return [path for end, paths in self.ends.items() if re.fullmatch(pattern, end) for path in paths]

    def below(self, names):
        """These crates and all that they stand on, of this repository."""
        below = {name for name in names if name in self.stands}
        while more := {low for name in below for low in self.stands[name] if low in self.stands} - below:
            below |= more
        return below

    def words_of(self, names):
        """The words of the code of these crates."""
        return set().union(*(words for path, words in self.code.items() if crate_of(path) in names))


def text_of(path):
    with open(path, encoding='utf-8', errors='replace') as file:
        return file.read()


def crates():
    """Each crate, and what it stands on."""
    lines = (line.split('#')[0].partition(':') for line in text_of('crates.txt').split('\n'))
    return {name.split()[0]: others.split() for name, _, others in lines if name.strip()}


def crate_of(path):
    return path.split('/')[1] if path.startswith('crates/') and '/' in path[7:] else ''


def defines(path, parts):
    """Whether this file has the function of this name, is the module of this name, or calls it by its whole name."""
    text = text_of(path)
    return parts[-1] in WORD.findall(path) or re.search(rf'\bfn {parts[-1]}\b', text) is not None or '::'.join(parts[-2:]) in text


class Page:
    """The faults of one page."""

    def __init__(self, tree, path):
        self.tree, self.path, self.number, self.faults = tree, path, 0, []
        self.crate = path[len('docs/proofs/'):-len('.md')] if path.startswith('docs/proofs/') else None
        self.own = tree.words_of(tree.below([self.crate])) if self.crate else tree.all_code
        self.near = []

    def fault(self, what):
        self.faults.append(f'{self.path}:{self.number}: {what}')

    def look(self):
        block, kind, above, began = None, '', '', 0
        for self.number, line in enumerate(text_of(self.path).split('\n'), 1):
            fence = re.match(r'\s*```(\w*)', line)
            if fence and block is None:
                block, kind, began = [], fence[1], self.number
            elif fence:
                if kind == 'rust':
                    self.rust(block, above, began)
                block = None
            elif block is not None:
                block.append(line)
                if kind == 'sh':
                    self.commands(re.sub(r'(^|\s)#.*', '', line))
                elif kind != 'rust':
                    self.prose(line)
            else:
                above = line if line.strip() else above
                self.text(line)
        return self.faults

    def text(self, line):
        self.near = [name for name in re.findall(r'sctp_\w+', line) if name in self.tree.stands]
        self.prose(re.sub(r'`[^`]+`', '', line))
        for span in re.findall(r'`([^`]+)`', line):
            self.span(QUOTED.sub(' ', span).strip())

    def prose(self, line):
        for name in re.findall(r'\bdocs/[\w/]+\.md|\bsctp_\w+', line):
            if name not in self.tree.all_code and not self.tree.found(name):
                self.fault(f'{name}: there is none')
        for goal in re.findall(r'\]\(([^)#:]+)\)', line):
            if not os.path.exists(os.path.join(os.path.dirname(self.path), goal)):
                self.fault(f'{goal}: no such file')

    def span(self, span):
        first, _, behind = span.partition(' ')
        if first in ('(cd', *TOOLS) or behind and (first.startswith('./') or first.endswith(('.py', '.sh')) or first in self.tree.code):
            self.commands(span)
        elif PATH.fullmatch(span) and ('/' in span.strip('/.') or span.endswith(ENDINGS)) and not re.fullmatch(r'[\d./]+', span):
            self.is_there(span)
        elif re.fullmatch(r'\.?[A-Za-z_]\w*((::|\.)[A-Za-z_]\w*)+(\(.*\))?', span):
            self.together(WORD.findall(span.split('(')[0]), span)
        else:
            self.names(span)

    def is_there(self, path):
        found = self.tree.found(path)
        if self.crate and (path.startswith(OF_A_CRATE) or path.endswith('.rt')) and crate_of(path) == '':
            found = [one for one in found if crate_of(one) in (self.crate, *self.near)]
        if not found:
            self.fault(f'{path}: no such path')

    def together(self, parts, span):
        files = [path for path, words in self.tree.code.items() if all(part in words for part in parts)]
        is_function = '::' in span and parts[-1][0].islower() and parts[0] not in STD
        if not files or is_function and not any(defines(path, parts) for path in files):
            self.fault(f'{span}: in no file together')
        self.names(span.partition('(')[2])

    def names(self, span):
        for name in WORD.findall(HEXADECIMAL.sub(' ', span)):
            if len(name) > 1 and name not in ALLOWED and not VALUE.fullmatch(name):
                self.name(name)

    def name(self, name):
        part = re.sub(r'^(x_|X(?=[A-Z][a-z])|_)', '', name)
        if part != name or name.endswith('_'):
            if not any(one.endswith(part) if part != name else one.startswith(part) for one in self.tree.all_code - {part}):
                self.fault(f'{name}: no name has this part')
        elif '_' not in name and not re.search(r'[a-z0-9][A-Z]', name):
            if name not in self.tree.said:
                self.fault(f'{name}: nowhere in the tree')
        elif name not in self.own and name not in self.tree.words_of(self.tree.below(self.near)):
            there = 'in crates above, none of which the line names' if name in self.tree.all_code else 'in comments alone'
            self.fault(f'{name}: ' + (there if name in self.tree.said else 'nowhere in the tree'))

    def commands(self, line):
        folder = ''
        for part in re.split(r'&&|\|\|?|;', QUOTED.sub('', line).replace('(', ' ').replace(')', ' ')):
            words = [word for word in part.split() if not re.match(r'[A-Z_]+=', word)]
            if words[:1] == ['cd']:
                folder = words[1]
                if not os.path.isdir(folder):
                    self.fault(f'{folder}: no such folder')
            elif words:
                self.command(words, folder)

    def command(self, words, folder):
        first = words[0]
        if first not in TOOLS | SHELL and not self.tree.found(first):
            self.fault(f'{first}: no file of the tree, and no tool')
        if first == 'rt' and len(words) > 1 and words[1][0] != '-' and words[1] not in RT:
            self.fault(f'rt {words[1]}: no such command of rt')
        for at, word in enumerate(words[1:]):
            is_read = words[at] == '<' or word.endswith(('.py', '.sh'))
            if is_read and '/' in word and not os.path.exists(os.path.join(folder, word)) and not self.tree.found(word):
                self.fault(f'{word}: no such file')
            if re.match('--[a-z]', word) and first not in TOOLS:
                self.names(word.partition('=')[0].replace('-', ' '))

    def rust(self, block, above, began):
        """Each piece of a block stands in the file that is named above it, one behind the other."""
        self.number = began
        named = [path for path in re.findall(r'`([^`]+)`', above) if path in self.tree.code]
        if not named:
            self.fault('the line above the block names no file of the tree that it is from')
            return
        text = f'\n{text_of(named[-1])}\n'
        at = 0
        for piece in re.split(r'(?m)^\s*(?://\s*)?\.\.\s*$', '\n'.join(block)):
            piece = piece.strip('\n')
            at = text.find(f'\n{piece}\n', at)
            if at < 0:
                others = [line for line in piece.split('\n') if f'\n{line}\n' not in text] or piece.split('\n')
                self.fault(f'not so, or not in this order, in {named[-1]}: {others[0].strip()}')
                return


def words_and_exceptions():
    """What isn't used, as one pattern, and where each may be all the same: (file or folder, word) with the reason."""
    words, _, exceptions = text_of('tests/words.txt').partition('EXCEPTIONS\n')
    listed = [word.strip() for line in words.split('\n') if ':' in line and line[0] != '#' for word in line.split(':')[0].split(',')]
    pattern = '|'.join(sorted((re.escape(word) for word in listed), key=len, reverse=True))
    allowed = [tuple(part.strip() for part in line.split(':', 2)) for line in exceptions.split('\n') if line.strip()]
    return re.compile(rf'(?i)(?<![\w-])(?:{pattern})(?![\w-]| marks?\b)'), allowed


def said_in(path):
    """What a file says to its reader, line by line: a page's text, the comments of the header and the definitions, heads and public comments of code."""
    lines = text_of(path).split('\n')
    if path.endswith('.md'):
        fences = [line.lstrip().startswith('```') for line in lines]
        said = [line if sum(fences[:at]) % 2 == 0 else '' for at, line in enumerate(lines)]
    elif path.endswith('.antt'):
        said = [line.partition('--')[2] for line in lines]
    elif path.endswith('.h'):
        said = [''.join(re.findall(r'(?:/\*|^ \*)(.*)', line)) for line in lines]
    else:
        said, public = [], False
        for line in reversed(lines):
            comment = re.match(r'\s*//([/!])(.*)', line)
            if not comment and not line.lstrip().startswith('#['):
                public = re.match(r'\s*pub \w|\s+[A-Z]\w*[,({ ]', line) is not None
            said.append(comment[2] if comment and (public or comment[1] == '!') else '')
        said.reverse()
    return enumerate((re.sub(r'`[^`]*`|"[^"]*"', ' ', line) for line in said), 1)


def private_words(pages):
    """The faults of words: each word of the list that is used, but for the exceptions, of which there are 60 at most."""
    pattern, allowed = words_and_exceptions()
    if len(allowed) > MOST_EXCEPTIONS:
        yield f'tests/words.txt: {len(allowed)} exceptions, and {MOST_EXCEPTIONS} at most'
    files = sorted(tree_files('crates'))
    sources = [path for path in files if path.endswith('.rt') and '/src/' in path or path.endswith('.antt') and path.startswith(DEFINITIONS)]
    for path in [*pages, 'include/sctp_endpoint.h', *sources]:
        for number, line in said_in(path):
            for word in pattern.findall(line):
                if not any(path.startswith(place) and which in ('*', word.lower()) for place, which, _ in allowed):
                    yield f'{path}:{number}: {word}'


def tree_files(top):
    for folder, below, names in os.walk(top):
        below[:] = [name for name in below if name not in NO_SOURCES]
        yield from (os.path.join(folder, name) for name in names)


def write_figures():
    for page, text in figures.write(text_of('tests/figures.txt'), text_of).items():
        with open(page, 'w', encoding='utf-8') as file:
            file.write(text)


def main(words):
    if words == ['--figures']:
        write_figures()
        return 0
    tree = Tree()
    faults = []
    if words[:1] == ['--words'] or not words:
        faults += private_words(words[1:] or tree.pages)
        print(*faults, f'{len(faults)} words that are not of the field', sep='\n')
    if words[:1] != ['--words']:
        pages = words or tree.pages
        found = [fault for page in pages for fault in Page(tree, page).look()]
        if not words:
            found += figures.differing(text_of('tests/figures.txt'), text_of)
        print(*found, f'{len(pages)} pages, {len(found)} faults', sep='\n')
        faults += found
    return 1 if faults else 0


if __name__ == '__main__':
    sys.exit(main([os.path.normpath(word) for word in sys.argv[1:]]))
