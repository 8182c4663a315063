#!/usr/bin/env python3
"""The transcript of crates/sctp_broken by the model: each packet of three scripts, broken in every way, at the end that it comes to."""

import copy

import model
import wire

WORDS = ('0b000004 bf000004 04000008 3f000004 08000004 0900000c 00060008 7f000004 07000008 00000000 03000010 00000005 00010000 '
         '00000000 05000004 c000000c 00000001 00000000 ff000004 c2000010 00000001 00000000 00000000 06000004 0b000004')
LONG = WORDS.replace(' ', '') * 15

CLOSING = ['pair 1500 1400 65536 1 data', """connect 7 100, build A, draw 9 500, deliver A 1, deliver A 1, deliver B 1, deliver B 1, build A, deliver A 2,
deliver A 2, build B, deliver B 3, deliver B 3, send A 0 o 0 - 4869, build A, deliver A 3, deliver A 3, build B, deliver B 4, deliver B 4, take B 0,
shutdown A, build A, deliver A 4, deliver A 4, build B, deliver B 5, deliver B 5, deliver A 5, deliver A 5"""]
GIVEN_UP = ['pair 1500 1400 65536 1 data-pr', """open, send A 0 o 0 - 61, build A, send A 0 o 0 - 62, build A, send A 0 o 0 - 63, build A, deliver A 2,
abandon A 1, abandon A 2, abandon A 3, build A, deliver A 4, build B, deliver B 1"""]
IN_PART = ['pair 576 500 65536 1 idata-pr', 'open, send A 0 o 0 - ' + LONG + """, build A, build A, deliver A 1, deliver A 2, build B, deliver B 1,
abandon A 1, build A, deliver A 3, send A 0 o 0 - 61, build A, deliver A 4"""]

PACKETS = [('closing', CLOSING, found) for found in (
    'A 1 at B 3, B 1 at A 5, B 2 at A 5, B 1 again 6, A 2 at B 8, A 2 again 9, B 3 at A 11, B 3 again 12, A 3 at B 15, A 3 again 16, '
    'B 4 at A 18, B 4 again 19, A 4 at B 23, A 4 again 24, B 5 at A 26, B 5 again 27, A 5 at B 28, A 6 at B 28, A 5 again 29').split(', ')]
PACKETS += [('given up', GIVEN_UP, found) for found in 'A 1 at B 7, A 2 at B 7, A 3 at B 7, A 4 at B 12, B 1 at A 14'.split(', ')]
PACKETS += [('in part', IN_PART, found) for found in 'A 1 at B 4, A 2 at B 5, B 1 at A 7, A 3 at B 10, A 4 at B 13'.split(', ')]

REASONS = ['fault', 'ports', 'tag', 'state', 'cookie']


def broken(packet):
    """The packet broken in every way, but for lengths far past its end: the rules cut each of those alike."""
    for length in range(len(packet)):
        yield packet[:length]
    for bit in range(8 * len(packet)):
        flipped = bytearray(packet)
        flipped[bit // 8] ^= 1 << bit % 8
        yield bytes(flipped)
    for length in range(len(packet) + 8):
        yield wire.with_checksum(packet[:14] + length.to_bytes(2, 'big') + packet[16:])
    for kind in range(256):
        yield wire.with_checksum(packet[:12] + bytes([kind]) + packet[13:])


def told(pair, side, packet):
    """What an end tells of a packet: the place of its count."""
    word, *rest = pair.foreign(side, packet).split(' ')
    return {'taken': 'taken', 'answer': 'answered'}.get(word) or REASONS[int(rest[1]) - 1]


def line(name, counts):
    dropped = ', '.join('%d %s' % (counts[reason], reason) for reason in REASONS)
    return '%s: %d tried; dropped: %s; %d answered, %d taken; 0 differ, 0 changed' % (
        name, sum(counts.values()), dropped, counts['answered'], counts['taken'])


def main():
    sums = dict.fromkeys(REASONS + ['answered', 'taken'], 0)
    for script, (first, steps), found in PACKETS:
        name, before = found.rsplit(' ', 1)
        shown = []
        run = model.Script(shown.append)
        for text in [first] + steps.replace('\n', ' ').split(', ')[:int(before)]:
            run.line(text.strip().encode(), len(text))
        pair = run.pair
        side, place = name.split(' ')[:2]
        packet = pair.bags[side][int(place) - 1]
        counts = dict.fromkeys(sums, 0)
        for one in broken(packet):
            counts[told(copy.deepcopy(pair), 'B' if side == 'A' else 'A', one)] += 1
        counts['fault'] += 65536 - len(packet) - 8
        for key in sums:
            sums[key] += counts[key]
        print(line(script + ', ' + name, counts))
    print(line('all', sums))


if __name__ == '__main__':
    main()
