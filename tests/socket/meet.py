#!/usr/bin/env python3
"""Walks every interleaving of the packets of an SCTP handshake between two hosts, of which either may call, be aborted by its user, or crash.

    meet.py [--only WORDS] [--trace]     walks the scenarios whose names have all these words, and prints a line for each: how many states, and how many
                                         of them are bad in which way; --trace also prints the shortest way to each kind. The status is 1 if a state of
                                         two sockets by the tables is bad but as it must be, or if all were walked and a wrong rule had no bad state

The network is the worst one: a packet that was sent stays in the bag for ever, and is delivered any number of times (0 too), in any order. The state
(both hosts, bag, budgets) is finite since connects, crashes, user aborts and fresh tags are budgeted; all of it is walked (breadth first).

Hosts: Ours(rule), a socket by the tables of crates/sctp_socket (specs/Meeting, specs/Routing), or with one rule of them left out;
       Rfc, RFC 9260 5.1 to 5.2.4 with tie-tags.

What is asked of every reachable state:
  slow      from here on nothing is lost, repeated or late, and each side repeats what its timer repeats (the open ones also send DATA): three orders of
            delivery. Bad if in one of them, after ROUNDS rounds, somebody still calls or is open, and they aren't open to each other: then only
            the end of the repeats helps (243 s of a call, 363 s of an open one). Of these, by what A and B are (C calls, E echoes, O open, - nothing):
            slow:E- and slow:-E are inherent: who crashed, or was aborted, doesn't answer an echo. To be compared with 'base rfc', two RFC machines.
  apart     both are open, and the tags don't match
  listeners both are open to each other, and both were begun by a cookie (the theorem knows a caller and a listener, or two opened without packets)
  restarts  an open association was replaced although its peer neither crashed nor called again
  reuse     a host is open under a tag of its own under which it was open before, to another peer's tag
  stray     DATA is accepted that the peer sent in another association
  twice     one host has begun two associations by cookies with the same peer's tag (a ghost, or a repeated one)
"""
import sys
from collections import deque, namedtuple

ROUNDS = 8
# a host: what it is (None, ('C', a), ('E', a, t, cookie), ('O', own, peer, role)), clock (rises with each cookie and each connect), life (crashes so
# far), since (cookies made at or before that begin nothing), made (cookies of this life), uses: own tags under which it was open, with the peer's;
# begun: peers' tags of cookies that began something; fault: notes of what went wrong; dead: its tags of calls and associations that are over
Host = namedtuple('Host', 'ep clock life since made uses begun fault dead')
Cookie = namedtuple('Cookie', 'maker life made ltag ctag tie')
FRESH = Host(None, 1, 0, 0, frozenset(), frozenset(), frozenset(), frozenset(), frozenset())


def opened(h, own, peer, role, since=None):
    fault = h.fault
    if any(u[0] == own and u[1] != peer for u in h.uses):
        fault |= {'reuse'}
    begun = h.begun
    if role == 'L':
        if (h.life, peer) in begun:
            fault |= {'twice'}
        begun |= {(h.life, peer)}
    return h._replace(ep=('O', own, peer, role), since=h.since if since is None else since, uses=h.uses | {(own, peer)}, begun=begun, fault=fault)


def cookie(name, h, ltag, ctag, tie):
    """the host, and its cookie of these tags; the one that it made before if it may still begin something"""
    for k in h.made:
        if (k.ltag, k.ctag, k.tie) == (ltag, ctag, tie) and k.made > h.since:
            return h, k
    k = Cookie(name, h.life, h.clock + 1, ltag, ctag, tie)
    return h._replace(clock=h.clock + 1, made=h.made | {k}), k


def over(h, kept=None):
    """the host without its call or association, whose tag is over unless it is the one that is kept"""
    return h if h.ep is None else h._replace(ep=None, dead=h.dead | ({h.ep[1]} - {kept}))


class Ours:
    """A socket with one peer. rule: 'meet', that of the tables, or a wrong one: 'nobar' (without the bar on old cookies), 'norecall' (the cookie begins an
    association where the tables call again), 'nodead' (so does one under a tag that has served), 'notie' (and one of a crossing call, whatever the order of
    the tags)."""
    def __init__(self, name, rule):
        self.name, self.rule = name, rule

    def tag_for(self, h, b):
        """for INIT(b): None (not answered), 'fresh', or the tag of the answer"""
        ep = h.ep
        if ep is None or ep[0] == 'O':
            return 'fresh'
        if ep[0] == 'C':
            return ep[1]
        return None if b == ep[2] else 'fresh'

    def choice(self, h, k):
        """what a cookie of ours does that came with its own tag: 'take', 'recall', None"""
        ep, rule = h.ep, self.rule
        if k.maker != self.name or k.life != h.life or (rule != 'nobar' and k.made <= h.since):
            return None
        if rule != 'nodead' and k.ltag in h.dead:
            return None
        if ep is None:
            return 'take'
        if ep[0] == 'O':
            return 'take' if k.ltag != ep[1] else None if rule == 'norecall' else 'recall'
        if ep[0] == 'C':
            return 'take' if k.ltag == ep[1] else None
        if k.ctag == ep[2]:
            return 'take' if k.ctag > ep[1] or rule == 'notie' else None
        return 'recall' if k.ltag == ep[1] and rule != 'norecall' else 'take'

    def handle(self, h, p, draw):
        """host after the packet, packets sent, whether a draw was used; None if it does nothing"""
        kind, ep = p[0], h.ep
        if kind == 'INIT':
            w = self.tag_for(h, p[1])
            fresh = w == 'fresh'
            if w is None or fresh and draw is None:
                return None
            h, k = cookie(self.name, h, draw if fresh else w, p[1], None)
            return h, [('INITACK', p[1], k.ltag, k)], fresh
        if kind == 'INITACK':
            if ep and ep[0] == 'C' and p[1] == ep[1]:
                return h._replace(ep=('E', ep[1], p[2], p[3])), [('ECHO', p[2], p[3])], False
            return None
        if kind == 'ECHO':
            vtag, k = p[1], p[2]
            if ep and ep[0] == 'O' and vtag == ep[1] and (k.ltag, k.ctag) == (ep[1], ep[2]):   # the endpoint's own: a repeated cookie
                if ep[3] == 'L' and k.maker == self.name and k.life == h.life:
                    return h, [('COOKIEACK', ep[2])], False
                return None
            what = self.choice(h, k) if vtag == k.ltag else None
            if what is None:
                return None
            if what == 'recall':
                if draw is None:
                    return None
                if ep[0] == 'O':
                    h = h._replace(fault=h.fault | {('restart', k.ctag)})
                return over(h)._replace(ep=('C', draw), since=h.clock, clock=h.clock + 1), [('INIT', draw)], True
            if ep and ep[0] == 'O':
                h = h._replace(fault=h.fault | {('restart', k.ctag)})
            return opened(over(h, k.ltag), k.ltag, k.ctag, 'L', k.made), [('COOKIEACK', k.ctag)], False
        if kind == 'COOKIEACK':
            if ep and ep[0] == 'E' and p[1] == ep[1]:
                return opened(h, ep[1], ep[2], 'C'), [], False
            return None
        return common(self, h, p)


class Rfc:
    """RFC 9260, 5.1 to 5.2.4"""
    def __init__(self, name):
        self.name, self.rule = name, 'rfc'

    def handle(self, h, p, draw):
        kind, ep = p[0], h.ep
        if kind == 'INIT':
            if ep is None or ep[0] == 'O':
                if draw is None:
                    return None
                tag, tie, fresh = draw, None if ep is None else (ep[1], ep[2]), True
            else:
                tag, tie, fresh = ep[1], None if ep[0] == 'C' else (ep[1], ep[2]), False
            return h, [('INITACK', p[1], tag, Cookie(self.name, h.life, 0, tag, p[1], tie))], fresh
        if kind == 'INITACK':
            if ep and ep[0] == 'C' and p[1] == ep[1]:
                return h._replace(ep=('E', ep[1], p[2], p[3])), [('ECHO', p[2], p[3])], False
            return None
        if kind == 'ECHO':
            vtag, k = p[1], p[2]
            if k.maker != self.name or k.life != h.life or vtag != k.ltag:
                return None
            if ep is None:
                return opened(h, k.ltag, k.ctag, 'L'), [('COOKIEACK', k.ctag)], False
            own, peer = ep[1], (None if ep[0] == 'C' else ep[2])
            if k.ltag == own and k.ctag == peer:       # D
                if ep[0] == 'O':
                    return h, [('COOKIEACK', peer)], False
                return opened(h, own, peer, 'L'), [('COOKIEACK', peer)], False
            if k.ltag == own:                          # B
                return opened(h, own, k.ctag, 'L'), [('COOKIEACK', k.ctag)], False
            if k.ctag != peer and k.tie == (own, peer) and ep[0] == 'O':  # A
                h = h._replace(fault=h.fault | {('restart', k.ctag)})
                return opened(h, k.ltag, k.ctag, 'L'), [('COOKIEACK', k.ctag)], False
            return None                                # C, and all others
        if kind == 'COOKIEACK':
            if ep and ep[0] == 'E' and p[1] == ep[1]:
                return opened(h, ep[1], ep[2], 'C'), [], False
            return None
        return common(self, h, p)


def common(self, h, p):
    kind, ep = p[0], h.ep
    if kind == 'DATA':      # ('DATA', vtag, sender's own, sender's peer)
        if ep is None:
            return h, [('ABORT', True, p[1])], False
        if ep[0] == 'O' and p[1] == ep[1]:
            if (p[2], p[3]) != (ep[2], ep[1]):
                return h._replace(fault=h.fault | {'stray'}), [], False
        return None
    if kind == 'ABORT':
        if ep is None:
            return None
        if p[1]:
            ok = ep[0] in 'EO' and p[2] == ep[2]
        else:
            ok = p[2] == ep[1]
        return (over(h), [], False) if ok else None
    return None


def repeats(h):
    ep = h.ep
    if ep is None:
        return []
    if ep[0] == 'C':
        return [('INIT', ep[1])]
    if ep[0] == 'E':
        return [('ECHO', ep[2], ep[3])]
    return [('DATA', ep[2], ep[1], ep[2])]


class World:
    def __init__(self, a, b, *, connects, draws, crashes=(0, 0), aborts=(0, 0), data=False, start=None, must=True):
        self.hosts = (a, b)
        self.connects, self.draws, self.crashes, self.aborts, self.data, self.must = connects, draws, crashes, aborts, data, must
        self.known = {}
        self.first = ((FRESH, FRESH), frozenset(), (0, 0), (0, 0), (0, 0), (0, 0)) if start is None else start

    # state: hosts, bag of (destination, packet), connects used, draws used, crashes used, aborts used
    def nexts(self, s):
        hosts, bag, con, dr, cr, ab = s
        for i in (0, 1):
            h = hosts[i]
            if h.ep is None and con[i] < len(self.connects[i]):
                a = self.connects[i][con[i]]
                n = h._replace(ep=('C', a), since=h.clock, clock=h.clock + 1)
                yield ('connect', i, a), self.made(s, i, n, [('INIT', a)], con=bump(con, i))
            if cr[i] < self.crashes[i] and (h.ep is not None or any(d != i for d, _ in bag)):
                n = FRESH._replace(life=h.life + 1, uses=h.uses, begun=h.begun, fault=h.fault)
                yield ('crash', i), self.made(s, i, n, [], cr=bump(cr, i))
            if ab[i] < self.aborts[i] and h.ep is not None:
                out = [('ABORT', False, h.ep[2])] if h.ep[0] in 'EO' else []
                yield ('abort', i), self.made(s, i, over(h), out, ab=bump(ab, i))
            if self.data and h.ep and h.ep[0] == 'O':
                t = self.made(s, i, h, repeats(h))
                if t != s:
                    yield ('data', i), t
        for d, p in bag:
            h = hosts[d]
            draw = 1000 * (d + 1) + dr[d] if dr[d] < self.draws[d] else None
            r = self.hosts[d].handle(h, p, draw)
            if r is None:
                continue
            n, out, used = r
            t = self.made(s, d, n, out, dr=bump(dr, d) if used else None)
            if t != s:
                yield ('deliver', d, p), t

    def made(self, s, i, n, out, con=None, dr=None, cr=None, ab=None):
        hosts, bag, c, d, r, a = s
        hosts = (n, hosts[1]) if i == 0 else (hosts[0], n)
        return hosts, bag | {(1 - i, p) for p in out}, con or c, dr or d, cr or r, ab or a

    # ---- is it bad here
    def recovers(self, s, order):
        key = tuple(h._replace(uses=None, begun=None, fault=frozenset()) for h in s[0]), order
        if key not in self.known:
            self.known[key] = self.recovered(s, order)
        return self.known[key]

    def recovered(self, s, order):
        hosts, n = list(s[0]), [5000, 6000]

        def pump(queue, cross):
            steps = 0
            while queue and steps < 60:
                steps += 1
                d, p = queue.popleft()
                n[d] += 1
                r = self.hosts[d].handle(hosts[d], p, n[d])
                if r:
                    hosts[d] = r[0]
                    queue.extend((1 - d, q) for q in r[1])
        for _ in range(ROUNDS):
            if order == 'cross':
                q = deque((1 - i, p) for i in (0, 1) for p in repeats(hosts[i]))
                pump(q, True)
            else:
                for i in ((0, 1) if order == 'ab' else (1, 0)):
                    pump(deque((1 - i, p) for p in repeats(hosts[i])), False)
        a, b = hosts[0].ep, hosts[1].ep
        if a is None and b is None:
            return 'none'
        if a and b and a[0] == b[0] == 'O' and a[1] == b[2] and a[2] == b[1]:
            return 'met'
        return 'slow'

    def bad(self, s):
        found = set()
        hosts = s[0]
        a, b = hosts[0].ep, hosts[1].ep
        both = a and b and a[0] == b[0] == 'O'
        if both and (a[1] != b[2] or a[2] != b[1]):
            found.add('apart')
        if both and (a[1], a[2]) == (b[2], b[1]) and a[3] == b[3]:
            found.add('listeners' if a[3] == 'L' else 'callers')
        for i in (0, 1):
            if self.hosts[0].rule != 'rfc' and self.hosts[i].rule == 'rfc':
                continue
            for f in hosts[i].fault:
                if isinstance(f, tuple):
                    # a restart is right if the peer crashed, aborted, or called more than once
                    if s[4][1 - i] == 0 and s[5][1 - i] == 0 and s[2][1 - i] < 2 and s[4][i] == 0 and s[5][i] == 0:
                        found.add('restarts')
                else:
                    found.add(f)
        for order in ('ab', 'ba', 'cross'):
            r = self.recovers(s, order)
            if r == 'slow':
                found.add('slow')
                found.add('slow:' + ''.join('-' if x is None else x[0] for x in (a, b)))
            if r == 'none' and self.must and sum(s[4]) + sum(s[5]) == 0 and sum(s[2]) > 0:
                found.add('lost')
        return found

    def walk(self, limit=25_000):
        seen, todo, counts, first = {self.first: None}, deque([self.first]), {}, {}
        while todo:
            s = todo.popleft()
            for f in self.bad(s):
                counts[f] = counts.get(f, 0) + 1
                first.setdefault(f, s)
            for why, t in self.nexts(s):
                if t not in seen:
                    seen[t] = (s, why)
                    todo.append(t)
                    if len(seen) > limit:
                        return seen, counts, first, False
        return seen, counts, first, True


def bump(t, i):
    return (t[0] + 1, t[1]) if i == 0 else (t[0], t[1] + 1)


def trace(seen, s):
    lines = []
    while seen[s]:
        p, why = seen[s]
        lines.append(f'{show(why)}   ->  A {ep(s[0][0])}  B {ep(s[0][1])}')
        s = p
    return lines[::-1]


def ep(h):
    return 'none' if h.ep is None else ' '.join(str(x) for x in h.ep[:3]) + (' ' + h.ep[3] if h.ep[0] == 'O' else '')


def show(why):
    if why[0] == 'deliver':
        p = why[2]
        body = ' '.join(f'({x.ltag},{x.ctag})' if isinstance(x, Cookie) else str(x) for x in p)
        return f"deliver to {'AB'[why[1]]}: {body}"
    return f"{why[0]} {'AB'[why[1]]} {' '.join(str(x) for x in why[2:])}"


def scenarios():
    def host(rule):
        return Rfc('A') if rule == 'base' else Ours('A', rule)
    kinds = [('ours', lambda r, n: Ours(n, r)), ('rfc', lambda r, n: Rfc(n))]
    for rule in ('base', 'meet', 'nobar', 'norecall', 'nodead', 'notie'):
        for kind, make in kinds:
            if rule == 'base' and kind == 'ours':
                continue
            for order, tags in (('a<b', ([10], [20])), ('a>b', ([20], [10]))):
                yield f'{rule} {kind} both-call {order}', lambda rule=rule, make=make, tags=tags: World(host(rule), make(rule, 'B'), connects=tags, draws=(2, 2))
            yield f'{rule} {kind} both-call a=b', lambda rule=rule, make=make: World(host(rule), make(rule, 'B'), connects=([10], [10]), draws=(2, 2))
            yield f'{rule} {kind} A-calls', lambda rule=rule, make=make: World(host(rule), make(rule, 'B'), connects=([10], []), draws=(2, 2), data=True)
            yield f'{rule} {kind} B-calls', lambda rule=rule, make=make: World(host(rule), make(rule, 'B'), connects=([], [10]), draws=(2, 2), data=True)
            for name, tags in (('B-low', ([20], [15, 10])), ('B-up', ([20], [15, 30])), ('B-high', ([10], [15, 20]))):
                yield f'{rule} {kind} B-crashes {name}', lambda rule=rule, make=make, tags=tags: World(host(rule), make(rule, 'B'), connects=tags, draws=(2, 1) if kind == 'ours' and rule == 'meet' and name == 'B-low' else (1, 1), crashes=(0, 1), must=False)
                yield f'{rule} {kind} B-aborts {name}', lambda rule=rule, make=make, tags=tags: World(host(rule), make(rule, 'B'), connects=tags, draws=(1, 1), aborts=(0, 1), must=False)
            yield f'{rule} {kind} A-crashes', lambda rule=rule, make=make: World(host(rule), make(rule, 'B'), connects=([20, 30], [25]), draws=(1, 1), crashes=(1, 0), must=False)
            yield f'{rule} {kind} restart B-only', lambda rule=rule, make=make: World(host(rule), make(rule, 'B'), connects=([], [15, 10]), draws=(2, 0), crashes=(0, 1), data=True, must=False)


SLOW = {'slow', 'slow:E-', 'slow:-E'}


def faults(name, counts):
    """what is wrong with two sockets by the tables: all but the slow states that nothing can help, and those of two equal tags"""
    return set(counts) - SLOW - ({'slow:CC', 'slow:EE'} if 'a=b' in name else set()) if name.startswith('meet ours') else set()


def main(words, traced):
    wrong, failed = {}, False
    for name, make in scenarios():
        if not all(w in name.split() or w in name for w in words):
            continue
        seen, counts, first, whole = make().walk()
        kinds = ' '.join(f'{k} {v}' for k, v in sorted(counts.items())) or 'none bad'
        print(f"{name:34} {len(seen):8} states{'' if whole else ' (cut)'}  {kinds}", flush=True)
        failed |= bool(faults(name, counts))
        rule, kind = name.split()[:2]
        if kind == 'ours' and rule != 'meet':
            wrong.setdefault(rule, set()).update(k for k in counts if not k.startswith('slow'))
        if traced:
            for fault, state in first.items():
                print(f'  {fault}:', *trace(seen, state), sep='\n    ')
    unseen = [rule for rule, kinds in wrong.items() if not kinds] if not words else []
    if unseen:
        print('no fault of the wrong rules', *unseen)
    return 1 if failed or unseen else 0


if __name__ == '__main__':
    WORDS = sys.argv[sys.argv.index('--only') + 1].split() if '--only' in sys.argv else []
    sys.exit(main(WORDS, '--trace' in sys.argv))
