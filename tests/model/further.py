#!/usr/bin/env python3
"""An endpoint with options that no call and no word sets yet: what they do, and what they are worth over a link (`tests/links/README.md`).

further.py OPTIONS WORDS < LINES: as end.py WORDS, with these options by commas, each as `name` or `name=number`, or with `none`. They are those of
FURTHER in config.py, with a hyphen for each underscore: `further.py cubic,growth=2,all-blocks caller ..`."""

import sys

import config
import end


def options_of(word):
    """The options that a word says, None if it is none."""
    found = {}
    for one in [] if word == 'none' else word.split(','):
        name, is_number, value = one.partition('=')
        name = name.replace('-', '_')
        if name not in config.FURTHER or bool(is_number) == isinstance(config.FURTHER[name], bool) or is_number and not value.isdigit():
            return None
        found[name] = int(value) if is_number else True
    return found


def main():
    found = options_of(sys.argv[1]) if len(sys.argv) > 1 else None
    if found is None:
        sys.exit('further.py OPTIONS WORDS: of %s' % ', '.join(name.replace('_', '-') for name in config.FURTHER))
    config.FURTHER.update(found)
    del sys.argv[1]
    return end.main()


if __name__ == '__main__':
    sys.exit(main())
