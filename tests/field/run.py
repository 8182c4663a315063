#!/usr/bin/env python3
"""The library over real UDP sockets through a bottleneck, beside other flows: run.py PROGRAMS [--seconds N] [--runs N] [WORD ..].

PROGRAMS is a folder with relay, sctp, tcp, many and, if libusrsctp is there, usrsctp. Each measurement is a line: its name, the Mbit/s of each
flow's user after the fifth second, the share of the first, and how late the relay was. A run in which it was late says nothing of the flows: it is
thrown away, which a line says, and made again, three times at most. Words: `alone`, `beside`, `outages`, `port`, `many` (2,000 associations through
one socket, over the loopback interface); without one all. Root."""

import argparse
import os
import signal
import subprocess
import sys
import time

DELAY, SETTLES, WAIT = 20, 5, 30                        # ms each way; seconds that don't count; seconds more that a program may take
LATE_MEAN, LATE_MOST, TRIES = 1.0, 10.0, 3              # ms, of a second, beyond which the relay was late
LINKS = ((10, 50), (10, 200), (50, 50), (50, 200))      # Mbit/s, packets
ADDRESSES, ASSOCIATIONS = ('10.9.0.1', '10.9.0.2'), 2000


class Network:
    """Two namespaces, and between them the relay in a third."""

    def __init__(self, programs, rate, queue, seconds, dead=()):
        self.programs, self.longest, ident = programs, seconds + WAIT, 'field%d' % os.getpid()
        self.spaces, self.devices, self.flows = [ident + it for it in 'abr'], ['fa%d' % os.getpid(), 'fb%d' % os.getpid()], []
        for space in self.spaces:
            self.ip('netns', 'add', space)
        self.relay = self.start(2, 'relay', *self.devices, rate * 1_000_000, queue, DELAY, seconds, *dead)
        self.relay.stdout.readline()
        for space, device, address in zip(self.spaces, self.devices, ADDRESSES):
            self.ip('-n', self.spaces[2], 'link', 'set', device, 'netns', space)
            self.ip('-n', space, 'addr', 'add', address + '/24', 'dev', device)
            self.ip('-n', space, 'link', 'set', device, 'up', 'mtu', '1500', 'txqueuelen', '10000')

    def ip(self, *words):
        subprocess.run(['ip', *words], check=True)

    def start(self, side, program, *words):
        command = ['ip', 'netns', 'exec', self.spaces[side], os.path.join(self.programs, program), *map(str, words)]
        return subprocess.Popen(command, stdout=subprocess.PIPE, stderr=subprocess.DEVNULL, text=True)

    def add(self, flow, seconds):
        """A flow: its receiver, then its sender."""
        program, *words = flow.split(' ')
        port = 7000 + len(self.flows)
        receiver = self.start(1, program, 'receive', port, seconds)
        time.sleep(0.3)
        sender = self.start(0, program, 'send', *([] if program == 'tcp' else [port]), ADDRESSES[1], port, seconds, *words)
        self.flows.append((receiver, sender))

    def end(self):
        """(the lines of each receiver, those of each sender, those of the relay)"""
        try:
            said = [[self.lines(one) for one in flow] for flow in self.flows]
            relay = self.lines(self.relay)
            return [received for received, _ in said], [sent for _, sent in said], relay
        finally:
            self.close()

    def lines(self, process):
        """What a program writes until it ends; one whose association didn't open is killed."""
        try:
            return process.communicate(timeout=self.longest)[0].splitlines()
        except subprocess.TimeoutExpired:
            process.kill()
            return process.communicate()[0].splitlines()

    def close(self):
        for one in [self.relay] + [it for flow in self.flows for it in flow]:
            if one.poll() is None:
                one.send_signal(signal.SIGKILL)
                one.wait()
        for space in self.spaces:
            subprocess.run(['ip', 'netns', 'del', space], check=False)


class Run:
    """What one run gave: the bytes of each flow, second by second, and the relay's lateness."""

    def __init__(self, programs, flows, rate, queue, seconds, dead=()):
        network = Network(programs, rate, queue, seconds + 3, dead)
        try:
            for flow in flows:
                network.add(flow, seconds)
        except BaseException:
            network.close()
            raise
        received, self.sent, relay = network.end()
        self.bytes = [{int(line.split()[0]): int(line.split()[1]) for line in lines} for lines in received]
        self.relay = [[float(word) for word in line.split()] for line in relay]

    def rates(self):
        """Mbit/s of each flow after it has settled."""
        return [sum(bytes for second, bytes in flow.items() if second > SETTLES) * 8e-6 / max(1, max(flow, default=0) - SETTLES) for flow in self.bytes]

    def lateness(self):
        counted = [line for line in self.relay if line[1]]
        return (sum(line[2] * line[1] for line in counted) / max(1, sum(line[1] for line in counted)), max([line[3] for line in counted], default=0))

    def silence(self, dead_to):
        """Seconds after the path is back until something is received."""
        return min([second for second, bytes in self.bytes[0].items() if second > dead_to and bytes], default=float('inf')) - dead_to


def measured(asked, name, flows, rate, queue, dead=()):
    """Runs in which the relay was in time; each is a line."""
    good = []
    for _ in range(asked.runs):
        for _ in range(TRIES):
            run = Run(asked.programs, flows, rate, queue, asked.seconds, dead)
            late, most = run.lateness()
            if late <= LATE_MEAN and most <= LATE_MOST:
                good.append(run)
                break
            print('%s: thrown away, the relay was %.2f ms late, %.1f at most' % (name, late, most), flush=True)
        else:
            continue
        rates = run.rates()
        said = '%s: %s Mbit/s' % (name, ' and '.join('%.2f' % it for it in rates))
        said += ', share %.2f' % (rates[0] / max(sum(rates), 1e-9)) if len(rates) > 1 else ''
        said += ', silent for %d s after it was back' % run.silence(dead[1]) if dead else ''
        print('%s; the relay %.2f ms late, %.1f at most' % (said, late, most), flush=True)
    return good


def mean(values):
    return sum(values) / len(values) if values else float('nan')


def alone(asked):
    for rate, queue in LINKS:
        title = '%d Mbit/s, queue of %d' % (rate, queue)
        ours, reno = [measured(asked, '%s, %s alone' % (title, flow), [flow], rate, queue) for flow in ('sctp', 'tcp reno')]
        if ours and reno:
            print('%s: of reno\'s rate %.2f (0.97 is wanted)' % (title, mean([run.rates()[0] for run in ours]) / mean([run.rates()[0] for run in reno])))


def beside(asked):
    others = [('tcp reno', 0.40, 0.60), ('tcp cubic', 0.35, 0.60), ('sctp', 0.40, 0.60), ('tcp bbr', 0, 1)]
    if os.path.exists(os.path.join(asked.programs, 'usrsctp')):
        others.append(('usrsctp', 0.40, 0.60))
    for rate, queue in LINKS:
        for other, least, most in others:
            title = '%d Mbit/s, queue of %d, beside %s' % (rate, queue, other)
            runs = measured(asked, title, ['sctp', other], rate, queue)
            if runs:
                print('%s: share %.2f (%.2f to %.2f is wanted)' % (title, mean([run.rates()[0] / sum(run.rates()) for run in runs]), least, most))


def outages(asked):
    for seconds in (3, 5, 8, 10, 14, 20):
        for flow in ('sctp', 'tcp reno'):
            measured(asked, 'a path that is dead for %d s, %s' % (seconds, flow), [flow], 10, 50, (6, 6 + seconds))


def port(asked):
    for run in measured(asked, 'another UDP port after 6 s', ['sctp port 6'], 10, 50):
        print('the rate in the seconds from the fifth on: %s Mbit/s' % ' '.join('%.1f' % (run.bytes[0].get(second, 0) * 8e-6) for second in range(5, 13)))


def many(asked):
    words = ('serve', 7100, asked.seconds + 2), ('call', 7101, '127.0.0.1', 7100, asked.seconds, ASSOCIATIONS)
    both = [subprocess.Popen([os.path.join(asked.programs, 'many'), *map(str, it)], stdout=subprocess.PIPE, text=True) for it in words]
    for name, one in zip(('the server', 'the caller'), both):
        print('many associations through one socket: %s: %s' % (name, one.communicate(timeout=asked.seconds + WAIT)[0].strip()))


def main():
    parser = argparse.ArgumentParser()
    parser.add_argument('programs')
    parser.add_argument('words', nargs='*')
    parser.add_argument('--seconds', type=int, default=60)
    parser.add_argument('--runs', type=int, default=3)
    asked = parser.parse_intermixed_args()
    parts = {'alone': alone, 'beside': beside, 'outages': outages, 'port': port, 'many': many}
    if set(asked.words) - set(parts):
        parser.error('words: %s' % ', '.join(parts))
    for word in asked.words or parts:
        parts[word](asked)
    return 0


sys.exit(main())
