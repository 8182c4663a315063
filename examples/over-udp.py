#!/usr/bin/env python3
"""Two endpoints, each a process of its own (`sctp-end`, built), talk over UDP on the loopback interface: each sends messages to the other, which
takes them; then the caller closes. Run by hand: examples/over-udp.py [MODE [MESSAGES [LOST [REPEATED [LATE]]]]], the last three in percent of
the packets: lost, sent twice, and held back for up to 50 ms, so that others overtake them. The words `delay` and `standard-closing`, after
these, go to both endpoints. Status 0: all messages arrived whole, once and in order.

A receive buffer lets the peer send all that it has space for at once, so the socket's own buffer is 2.5 times as large (the system counts more
of a datagram than its payload, and may allow less: so a turn sends at most eight packets, and then reads all that were received). Neither
process ends before both have closed: a SHUTDOWN COMPLETE that is lost is sent again."""
import heapq, random, select, socket, subprocess, sys, time
from pathlib import Path

TURN = 8
BUFFER = 131072
OPTIONS = ("delay", "standard-closing")
words = [word for word in sys.argv[1:] if word not in OPTIONS]
options = [option for option in OPTIONS if option in sys.argv[1:]]
mode = words[0] if words else "data"
messages, lost, repeated, late = (int(word) for word in (words[1:] + ["20", "0", "0", "0"][len(words[1:]):]))
program = Path(__file__).resolve().parent.parent / "sctp-end"
begun = time.monotonic()


class End:
    def __init__(self, role, port, peer, *key):
        words = [program, role, "1400", "1200", str(BUFFER), "4", mode, *options, str(port), str(peer), *key]
        self.process = subprocess.Popen(words, stdin=subprocess.PIPE, stdout=subprocess.PIPE, text=True, bufsize=1)
        self.socket = socket.socket(socket.AF_INET, socket.SOCK_DGRAM)
        self.socket.setsockopt(socket.SOL_SOCKET, socket.SO_RCVBUF, BUFFER * 5 // 2)
        self.socket.bind(("127.0.0.1", 0))
        self.socket.setblocking(False)
        self.held, self.sent, self.taken = [], 0, []

    def ask(self, line):
        try:
            self.process.stdin.write(line + "\n")
        except BrokenPipeError:
            pass
        answer = self.process.stdout.readline()
        if not answer:  # it says why
            sys.exit(self.process.wait())
        return answer.rstrip("\n")

    def hold(self, packet):  # until it goes out: not at all, once or twice, and maybe late
        for _ in range(0 if random.randrange(100) < lost else 2 if random.randrange(100) < repeated else 1):
            wait = random.random() / 20 if random.randrange(100) < late else 0
            heapq.heappush(self.held, (time.monotonic() + wait, packet))

    def hear(self):  # all datagrams that were received
        while select.select([self.socket], [], [], 0)[0]:
            answer = self.ask("packet " + self.socket.recv(65536).hex()).split()
            if answer[0] == "answer":
                self.hold(answer[1])

    def go_on(self):  # the time, some of what is to be sent, and what the user does
        self.ask(f"at {int((time.monotonic() - begun) * 1000)}")
        for _ in range(TURN):
            built = self.ask("build").split()
            if built[0] != "sent":
                break
            self.hold(built[1])
        for _ in range(TURN):
            if not self.held or self.held[0][0] > time.monotonic():
                break
            self.socket.sendto(bytes.fromhex(heapq.heappop(self.held)[1]), self.peer.socket.getsockname())
        while (message := self.ask("take 0").split())[0] == "message":
            self.taken.append(int(message[-1], 16))
        if self.sent < messages and self.ask(f"send 0 o 0 - {self.sent + 1:08x}").startswith("ticket"):
            self.sent += 1


caller, listener = End("caller", 5000, 5001), End("listener", 5001, 5000, "%064x" % random.getrandbits(256))
caller.peer, listener.peer, both = listener, caller, (caller, listener)
caller.ask(f"connect {random.randrange(1, 2**32)} {random.randrange(2**32)}")
while not all(end.ask("state").startswith("state Closed") for end in both):
    listener.ask(f"draw {random.randrange(1, 2**32)} {random.randrange(2**32)}")
    for end in both:
        end.go_on()
    select.select([end.socket for end in both], [], [], 0.005)
    for end in both:
        end.hear()
    if all(len(end.taken) == messages for end in both):
        caller.ask("shutdown")
for name, end in (("caller", caller), ("listener", listener)):
    print(f"{name}: {end.sent} sent, {len(end.taken)} taken, {end.ask('state')[6:]}")
sys.exit(any(end.taken != list(range(1, messages + 1)) for end in both))
