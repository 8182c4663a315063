#!/usr/bin/env python3
"""Lines over an association over UDP (RFC 6951: a packet is the payload of a datagram), as examples/c/udp.c does it, with which it talks.

    udp.py listen 9899                            prints the lines that it receives
    udp.py call 9900 127.0.0.1 9899 < lines       sends them, and closes

The socket's receive buffer holds all that the endpoint's own buffer lets the peer send at once, since nothing slows a sender down but that; and
after closing, the socket stays open for some seconds, so that the peer learns of it even if the last packet is lost."""

import os
import select
import socket
import sys
import time

from sctp_endpoint import Config, Ended, Endpoint, Refused, Result, State

BUFFER = 65536  # bytes of the endpoint's receive buffer: one stream, and a line is shorter
SOCKET_BUFFER = BUFFER * 5 // 2  # bytes: the system counts more of a datagram than its payload
LINGER = 8000  # ms for which a lost SHUTDOWN COMPLETE is repeated: the peer asks for it again after 1, 3 and 7 seconds
PACKETS_A_TURN = 16


def now():
    return int(time.monotonic() * 1000)


class Program:
    def __init__(self, endpoint, udp, peer, lines):
        self.endpoint, self.udp, self.peer, self.lines = endpoint, udp, peer, lines
        self.linger_until = 0  # unless the last answer was SHUTDOWN COMPLETE

    def transmit(self):
        """Sends some of the packets that may be sent. True if there may be more."""
        for _ in range(PACKETS_A_TURN):
            sent = self.endpoint.poll_transmit(now())
            if sent is None:
                return False
            self.udp.sendto(sent.packet, self.peer)
        return True

    def receive(self):
        packet, sender = self.udp.recvfrom(65536)
        verdict = self.endpoint.handle_packet(now(), packet)
        if verdict.answer is not None:
            self.udp.sendto(verdict.answer, sender)
            if self.endpoint.status().ended == Ended.COMPLETED:
                self.linger_until = now() + LINGER
        elif verdict.reason is None:
            self.peer = sender  # its tag was right: this is the peer's address

    def take(self):
        while (stream := self.endpoint.readable()) is not None:
            sys.stdout.buffer.write(self.endpoint.take(stream).bytes + b"\n")
        sys.stdout.flush()

    def send(self):
        """Queues lines, and closes after the last one. If the queue is full, the rest waits for the next turn."""
        while self.lines and self.endpoint.status().state == State.ESTABLISHED:
            try:
                self.endpoint.send(0, self.lines[0])
            except Refused as refused:
                if refused.result == Result.QUEUE_FULL:
                    return
                raise
            self.lines.pop(0)
            if not self.lines:
                self.endpoint.shutdown()

    def run(self):
        while True:
            more, status = self.transmit(), self.endpoint.status()
            if status.ended is not None and now() >= self.linger_until:
                return status.ended
            until = self.linger_until if status.ended is not None else status.next_moment
            wait = 60 if until is None else min(max(until - now(), 0) / 1000, 60)
            if select.select([self.udp], [], [], 0 if more else wait)[0]:
                self.receive()
            self.send()
            self.endpoint.on_moment(now())
            self.take()


def main(words):
    if [words[:1], len(words)] not in ([["listen"], 2], [["call"], 4]):
        sys.exit(__doc__)
    udp = socket.socket(socket.AF_INET, socket.SOCK_DGRAM)
    udp.setsockopt(socket.SOL_SOCKET, socket.SO_RCVBUF, SOCKET_BUFFER)
    udp.bind(("", int(words[1])))
    if words[0] == "listen":
        endpoint = Endpoint.listener(Config(5001, 5000, buffer=BUFFER, outbound=1, inbound=1), os.urandom(32))
        program = Program(endpoint, udp, None, [])
    else:
        endpoint = Endpoint.caller(Config(5000, 5001, buffer=BUFFER, outbound=1, inbound=1))
        endpoint.connect(now())
        program = Program(endpoint, udp, (words[2], int(words[3])), sys.stdin.buffer.read().split(b"\n")[:-1])
    ended = program.run()
    print("ended", ended.name, file=sys.stderr)
    return ended != Ended.COMPLETED


if __name__ == "__main__":
    sys.exit(main(sys.argv[1:]))
