#!/usr/bin/env python3
"""Milliseconds over links in virtual time, of the library's sender beside usrsctp's; tests/links.sh has the forms."""

import argparse
import hashlib
import json
import math
import os
import statistics
import subprocess
import sys

import grid

RECEIVERS = {grid.USRSCTP: ('usrsctp', []), grid.BLOCKS: ('usrsctp', ['blocks=20']), grid.SIDORGHU: ('ours', [])}
WANTED_RATIO, SLOWER, SHARES = 0.85, 1.4, (0.33, 0.67)
NO_LIMIT = 'chunks=100000'
LIMIT, SECONDS = 1_500, 120            # seconds of virtual time
READS, BUFFERS = (50, 100), (65_536, 262_144, 1_048_576)
FLAGS = {'fast-retransmit': 1, 'congestion-control': 2, 'reset': 4}
MODES = {'data': '', 'data-pr': 'partial=1', 'idata': 'interleave=1', 'idata-pr': 'interleave=1 partial=1'}


def fail(text):
    print('tests/links.sh: ' + text, file=sys.stderr)
    sys.exit(3)


class Words(argparse.ArgumentParser):
    """Wrong words are no missing package."""

    def error(self, message):
        fail(message)


class Runs:
    """Runs the program, and keeps what is wrong with a run."""

    def __init__(self, asked):
        self.asked, self.faults, self.count, self.ended, self.out, self.kept = asked, [], 0, 0, None, {}
        self.sender = 'lines' if asked.program else 'ours'
        self.words = configured(asked.words) + (['program=' + asked.program, 'words=' + ' '.join(asked.words)] if asked.program else [])
        if asked.keep:
            self.take_kept(asked.keep)

    def take_kept(self, path):
        """A file of runs, a line each: those of this program aren't made again, others are added."""
        with open(self.asked.links, 'rb') as file:
            self.built = hashlib.sha256(file.read()).hexdigest()
        if os.path.exists(path):
            with open(path, encoding='utf-8') as file:
                lines = [json.loads(line) for line in file]
            self.kept = {' '.join(line['words']): line['found'] for line in lines if line['program'] == self.built}
        self.out = open(path, 'a', encoding='utf-8')

    def run(self, flows, *settings):
        """What it prints of each flow."""
        words = ['flows=' + flows, *self.words, 'limit=%d' % LIMIT, *settings]
        found = self.kept.get(' '.join(words)) or self.made(words)
        self.count += 1
        for flow in found:
            if flow['unordered'] or not flow['got']:
                self.fault(words, 'messages out of order' if flow['unordered'] else 'nothing arrives')
        return found

    def made(self, words):
        done = subprocess.run([self.asked.links, *words], capture_output=True, text=True)
        if done.returncode:
            fail('%s: %s' % (' '.join(words), done.stderr.strip()))
        found = [json.loads(line) for line in done.stdout.splitlines()]
        if self.out:
            self.out.write(json.dumps({'words': words, 'program': self.built, 'found': found}) + '\n')
            self.out.flush()
        return found

    def fault(self, words, what):
        self.faults.append('%s: %s' % (' '.join(words), what))

    def transfer(self, link, sender, receiver, more):
        """(the mean of the seeds' milliseconds, of the packets with data sent again), of the runs in which the association doesn't end before"""
        seeds, size, whole = link.seeds(self.asked.seeds), self.asked.bytes or link.bytes(), []
        for seed in range(1, seeds + 1):
            settings = [*link.settings, *more, 'bytes=%d' % size, 'seed=%d' % seed]
            flow, = self.run('%s:%s' % (sender, receiver), *settings)
            whole += [flow] if flow['whole'] else []
            self.ended += flow['ended'] and not flow['whole']
            if not flow['whole'] and not flow['ended']:
                self.fault([sender, *settings], 'not all arrived within %d s' % LIMIT)
        if not whole:
            fail('no run arrives of ' + link.name)
        return statistics.mean(flow['ms'] for flow in whole), statistics.mean(flow['repeats'] for flow in whole)


def configured(words):
    """The settings of the library that these words ask for."""
    words, settings, flags = list(words), [], 0
    while words:
        word = words.pop(0)
        if word in FLAGS:
            flags |= FLAGS[word]
        elif word == 'rto-min' and words:
            settings.append('rto_min=%d' % int(words.pop(0)))
        elif word == 'delay':
            settings.append('delayed=1')
        elif word in MODES:
            settings += MODES[word].split()
        else:
            fail('%s is no option' % word)
    return [*settings, 'flags=%d' % flags]


def mean_ratio(rows):
    """The geometric mean."""
    return math.exp(statistics.mean(math.log(row['ratio']) for row in rows)) if rows else float('nan')


def print_links(name, links, runs):
    """A line for each link; the rows, one for each receiver."""
    print('\n%s: ms, usrsctp\'s ms, ratio' % name)
    print('%-52s' % '' + ''.join('%32s' % who for who in RECEIVERS))
    rows = []
    for link in links:
        line = []
        for who, (receiver, more) in RECEIVERS.items():
            (ms, again), (beside, beside_again) = [runs.transfer(link, sender, receiver, more) for sender in (runs.sender, 'usrsctp')]
            line.append({'link': link, 'who': who, 'ms': ms, 'ratio': ms / beside, 'again': again, 'beside_again': beside_again})
            line[-1]['text'] = '%s %s %.2f' % ('{:,.0f}'.format(ms), '{:,.0f}'.format(beside), ms / beside)
        print('%-52s' % link.name + ''.join('%32s' % row['text'] for row in line), flush=True)
        rows += line
    return rows


def print_slower(rows, runs):
    """The rows above 1.4, and what they are if usrsctp's limit of chunks, of those that it sends and of those that it holds, is off."""
    slower = [row for row in rows if row['ratio'] > SLOWER]
    print('\n%d of %d rows are above %.1f; without usrsctp\'s limit of 512 chunks, in both runs:' % (len(slower), len(rows), SLOWER))
    for row in sorted(slower, key=lambda row: -row['ratio']):
        receiver, more = RECEIVERS[row['who']]
        ms, beside = [runs.transfer(row['link'], sender, receiver, [*more, NO_LIMIT])[0] for sender in (runs.sender, 'usrsctp')]
        row['free'] = ms / beside
        print('  %-52s %-28s %s, without it %.2f' % (row['link'].name, row['who'], row['text'], row['free']), flush=True)
    print('%d of them stay above it' % sum(row['free'] > SLOWER for row in slower))


def print_wanted(rows):
    """The rows of which something is wanted."""
    found = {(row['link'].name, row['who']): row for row in rows}
    cells = [(found[link.name, who], ms) for link, wanted in grid.WANTED for who, ms in wanted.items() if (link.name, who) in found]
    print('\nwanted in %d rows, had in %d' % (len(cells), sum(row['ms'] <= ms for row, ms in cells)))
    for row, ms in cells:
        print('  %-52s %-28s %9s, wanted %s' % (row['link'].name, row['who'], '{:,.0f}'.format(row['ms']), '{:,}'.format(ms)))


def print_means(rows):
    lost = [row for row in rows if row['link'].trouble and 'lost' in row['link'].trouble and 'SACKs' not in row['link'].trouble]
    print('\ngeometric mean of the ratios: %.3f of %d rows (wanted: %.2f); where packets are lost at random: %.3f of %d' % (
        mean_ratio(rows), len(rows), WANTED_RATIO, mean_ratio(lost), len(lost)))
    for who in RECEIVERS:
        print('  %s: %.3f' % (who, mean_ratio([row for row in rows if row['who'] == who])))
    print('packets with data sent again, sums of all rows: %d, usrsctp\'s %d; more than usrsctp\'s in %d rows' % (
        sum(row['again'] for row in rows), sum(row['beside_again'] for row in rows), sum(row['again'] > row['beside_again'] for row in rows)))


def print_shares(runs):
    """Two senders through one queue, to usrsctp."""
    print('\nshare of the first of two senders at 10 Mbit/s, 50 ms one way, in %d s, and Mbit/s of both' % SECONDS)
    sender = runs.sender + ':usrsctp'
    pairs = {'beside itself': (sender, sender), 'first, usrsctp second': (sender, 'usrsctp:usrsctp'), 'second, usrsctp first': ('usrsctp:usrsctp', sender),
             'usrsctp beside itself': ('usrsctp:usrsctp', 'usrsctp:usrsctp')}
    for queue in (32, 64, 200):
        for name, flows in pairs.items():
            found = [runs.run(','.join(flows), 'share=1', 'seconds=%d' % SECONDS, 'rate=10', 'delay=50', 'queue=%d' % queue,
                              'start=0,%d' % (1_000 + 173 * seed), 'seed=%d' % seed) for seed in range(1, runs.asked.shares + 1)]
            shares = [first['share'] for first, _ in found]
            rate = statistics.mean(sum(flow['mbit'] for flow in flows) for flows in found)
            outside = sum(not SHARES[0] <= share <= SHARES[1] for share in shares)
            print('queue %3d  %-24s %s  %.1f  %s' % (queue, name, ' '.join('%.2f' % share for share in shares), rate,
                                                     '%d outside %.2f to %.2f' % (outside, *SHARES) if outside else ''), flush=True)


def print_windows(runs):
    """A user that reads at times: how long 10 MB take, and how long if each time the whole buffer was full."""
    print('\na user that reads each so many ms, 10 ms one way, no rate, 10 MB: ms, and of a buffer filled each time')
    for every in READS:
        for buffer in BUFFERS:
            full = math.ceil(10_000 / (buffer // 1_000)) * every
            line = []
            for flows in (runs.sender + ':ours', 'usrsctp:ours', 'usrsctp:usrsctp'):
                flow, = runs.run(flows, 'delay=10', 'read=%d' % every, 'buffer=%d' % buffer, 'bytes=10000000')
                line.append('%s %s %.2f' % (flows.replace(':', ' to '), '{:,.0f}'.format(flow['ms']), flow['ms'] / full))
            print('each %3d ms, buffer %9s, full each time %6s: %s' % (every, '{:,}'.format(buffer), '{:,}'.format(full), '; '.join(line)), flush=True)


def asked_of(words):
    parser = Words(prog='tests/links.sh')
    parser.add_argument('links')
    parser.add_argument('--short', action='store_true')
    parser.add_argument('--part', action='append', choices=['grid', 'wanted', 'random', 'shares', 'windows'])
    parser.add_argument('--seed', type=int, default=1)
    parser.add_argument('--random', type=int)
    parser.add_argument('--seeds', type=int)
    parser.add_argument('--shares', type=int)
    parser.add_argument('--bytes', type=int)
    parser.add_argument('--only', default='')
    parser.add_argument('--program')
    parser.add_argument('--keep')
    parser.add_argument('words', nargs='*')
    asked = parser.parse_intermixed_args(words)
    usual = {'seeds': 5, 'random': 6, 'shares': 1} if asked.short else {'seeds': 50, 'random': 60, 'shares': 3}
    for name, value in usual.items():
        setattr(asked, name, getattr(asked, name) or value)
    asked.words = asked.words or ['data', 'congestion-control']
    if asked.words[0] not in MODES:
        asked.words.insert(0, 'data')
    return asked


def main():
    asked = asked_of(sys.argv[1:])
    runs, parts, rows = Runs(asked), asked.part or ['grid', 'random', 'shares', 'windows'], []
    print('%s, %s' % (asked.program or 'the library', ' '.join(asked.words)))
    links = {'grid': grid.brief() if asked.short else grid.grid(), 'wanted': [link for link, _ in grid.WANTED],
             'random': grid.at_random(asked.seed, asked.random)}
    for name in links:
        if name in parts:
            rows += print_links('random, seed %d' % asked.seed if name == 'random' else name, [link for link in links[name] if asked.only in link.name], runs)
    if rows:
        print_means(rows)
        print_wanted([] if asked.bytes else rows)
        print_slower(rows, runs)
    if 'shares' in parts:
        print_shares(runs)
    if 'windows' in parts:
        print_windows(runs)
    if runs.ended:
        print('\n%d runs ended by a limit of retransmissions, and don\'t count in the means' % runs.ended)
    print('\n%d runs; %s' % (runs.count, '; '.join(runs.faults) or 'in each all messages arrived, in order, unless it ended before'))
    return 1 if runs.faults else 0


if __name__ == '__main__':
    sys.exit(main())
