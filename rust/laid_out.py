"""Which lines of a source are proof, by its layout: proof stands in lines of its own, and goes on as long as lines are further in."""
import re

VISIBLE = r'(?:pub(?:\(\w+\))? )?'
LAW = re.compile(r' *' + VISIBLE + r'fn (\w+)(?:<[^()]*>)?\((&self)?\)$')
CALL = re.compile(r' *(?:\w+(?:\.|::))*(\w+)\(\);?$')


class Layout(Exception):
    """A source is laid out in a way that this program can't read."""


def indent(line):
    return len(line) - len(line.lstrip())


def lines_of(text):
    """The lines with code in them; what is in strings of several lines stays one line."""
    text = re.sub(r'\\\n\s*', lambda m: '\0' + m.group(0)[2:].replace(' ', '\1') + '\2', text)
    return [it.rstrip() for it in text.split('\n') if it.strip() and not it.lstrip().startswith('//')]


def begins(line):
    """What kind of proof a line begins, if any."""
    words = re.sub(r'^' + VISIBLE, '', line.strip())
    if re.match(r'(requires|ensures)\b', words):
        return 'clause'
    if words.startswith('ghost use '):
        return 'import'
    if re.match(r'ghost \w+ ?[:=]', words):
        return 'member'
    if re.match(r'#!?\[tactic\b', words):
        return 'attribute'
    return 'model' if re.match(r'impl\b.* Model for ', words) else None


def behind(lines, at):
    """The first line behind what begins here: further in, or a closing brace as far in."""
    depth, end = indent(lines[at]), at + 1
    while end < len(lines) and (indent(lines[end]) > depth or indent(lines[end]) == depth and lines[end].lstrip().startswith('}')):
        end += 1
    return end


def is_law(lines, at):
    found = LAW.match(lines[at])
    if not found or at + 1 == len(lines) or begins(lines[at + 1]) != 'clause':
        return None
    above = [it for it in lines[:at] if indent(it) < indent(lines[at])]
    head = next((it for it in reversed(above) if indent(it) == 0), '') if indent(lines[at]) else ''
    return None if ' for ' in head or re.match(VISIBLE + 'trait ', head) else found.group(1)


def laws_of(text):
    lines = lines_of(text)
    return {it for it in (is_law(lines, at) for at in range(len(lines))) if it}


def without_proof(text, laws):
    """The lines of a source that aren't proof."""
    lines, kept, at = lines_of(text), [], 0
    while at < len(lines):
        kind = begins(lines[at])
        if is_law(lines, at):
            depth = indent(lines[at])
            at += 1
            while indent(lines[at]) > depth or begins(lines[at]):
                at += 1
            at = at + 1 if lines[at].endswith('{}') else behind(lines, at)
            if kept and lines[at:] and lines[at] == '}' and re.match(r'impl\b(?!.* for )', kept[-1]):
                kept.pop()
                at += 1
        elif kind:
            end = behind(lines, at)
            if kind == 'clause' and lines[end - 1].endswith('};'):
                kept.append(';')
            at = end
        elif (found := CALL.match(lines[at])) and found.group(1) in laws:
            at += 1
        else:
            kept.append(lines[at])
            at += 1
    return '\n'.join(kept)
