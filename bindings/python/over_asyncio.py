#!/usr/bin/env python3
"""Lines over an association over UDP by asyncio. It talks with udp.py and with examples/c/udp.c.

    over_asyncio.py listen 9899                            prints the lines that it receives
    over_asyncio.py call 9900 127.0.0.1 9899 < lines       sends them, and closes

`Association` is to be copied: packets and the timer drive the endpoint, and a program awaits what it wants of it. Only the loop's thread calls it."""

import asyncio
import os
import socket
import sys
import time

from sctp_endpoint import Config, Ended, Endpoint, Refused, Result, State

BUFFER = 65536  # bytes of the endpoint's receive buffer: one stream, and a line is shorter
SOCKET_BUFFER = BUFFER * 5 // 2  # bytes: the system counts more of a datagram than its payload
LINGER = 8  # seconds for which a lost SHUTDOWN COMPLETE is repeated: the peer asks for it again after 1, 3 and 7


def now():
    return int(time.monotonic() * 1000)


class Association(asyncio.DatagramProtocol):
    """An endpoint over a UDP socket. `peer` is an address, or None for a listener, which learns it."""

    def __init__(self, endpoint, peer=None):
        self.endpoint, self.peer = endpoint, peer
        self.messages = asyncio.Queue()  # what was received, then None
        self.changed = asyncio.Condition()
        self.timer, self.answered_last = None, False

    def connection_made(self, transport):
        self.transport = transport
        if self.peer is not None:
            self.endpoint.connect(now())
        self.turn()

    def datagram_received(self, packet, sender):
        try:
            verdict = self.endpoint.handle_packet(now(), packet)
        except Refused:  # no memory: the datagram counts as lost
            return
        if verdict.answer is not None:
            self.transport.sendto(verdict.answer, sender)
            self.answered_last = self.endpoint.status().ended == Ended.COMPLETED
        elif verdict.reason is None:
            self.peer = sender  # its tag was right: this is the peer's address
        self.turn()

    def turn(self):
        """After each packet, timer and call: takes what was received, sends what is to be sent, and sets the timer."""
        self.endpoint.on_moment(now())
        while (stream := self.endpoint.readable()) is not None:
            self.messages.put_nowait(self.endpoint.take(stream).bytes)
        while (sent := self.endpoint.poll_transmit(now())) is not None:
            self.transport.sendto(sent.packet, self.peer)
        status = self.endpoint.status()
        if self.timer is not None:
            self.timer.cancel()
            self.timer = None
        if status.next_moment is not None:
            self.timer = asyncio.get_running_loop().call_later(max(status.next_moment - now(), 0) / 1000, self.turn)
        asyncio.ensure_future(self.tell())

    async def tell(self):
        async with self.changed:
            self.changed.notify_all()

    async def until(self, holds):
        """Waits until this holds of the status."""
        async with self.changed:
            await self.changed.wait_for(lambda: holds(self.endpoint.status()))

    async def send(self, message):
        """Queues a message once the association is established and the queue has room."""
        while True:
            await self.until(lambda status: status.ended is not None or status.state == State.ESTABLISHED and status.queued < 1024)
            try:
                self.endpoint.send(0, message)
            except Refused as refused:
                if refused.result in (Result.QUEUE_FULL, Result.NO_MEMORY):
                    await asyncio.sleep(0.01)
                    continue
                raise
            self.turn()
            return

    async def end(self):
        """Closes gracefully if it is open, waits until the association is over, and returns how; the last answer may have to be repeated for some seconds."""
        if self.endpoint.status().state == State.ESTABLISHED:
            self.endpoint.shutdown()
            self.turn()
        await self.until(lambda status: status.ended is not None)
        if self.answered_last:
            await asyncio.sleep(LINGER)
        self.transport.close()
        return self.endpoint.status().ended


async def receive(association):
    """Prints what is received until the association is over."""
    over = asyncio.ensure_future(association.until(lambda status: status.ended is not None))
    while not (over.done() and association.messages.empty()):
        message = asyncio.ensure_future(association.messages.get())
        await asyncio.wait((message, over), return_when=asyncio.FIRST_COMPLETED)
        if message.done():
            sys.stdout.buffer.write(message.result() + b"\n")
            sys.stdout.flush()
        else:
            message.cancel()


async def run(words):
    udp = socket.socket(socket.AF_INET, socket.SOCK_DGRAM)
    udp.setsockopt(socket.SOL_SOCKET, socket.SO_RCVBUF, SOCKET_BUFFER)
    udp.bind(("", int(words[1])))
    calls = words[0] == "call"
    own, other = (5000, 5001) if calls else (5001, 5000)
    config = Config(own, other, buffer=BUFFER, outbound=1, inbound=1)
    endpoint = Endpoint.caller(config) if calls else Endpoint.listener(config, os.urandom(32))
    association = Association(endpoint, (words[2], int(words[3])) if calls else None)
    await asyncio.get_running_loop().create_datagram_endpoint(lambda: association, sock=udp)
    if calls:
        for line in sys.stdin.buffer.read().split(b"\n")[:-1]:
            await association.send(line)
    else:
        await receive(association)
    return await association.end()


def main(words):
    if [words[:1], len(words)] not in ([["listen"], 2], [["call"], 4]):
        sys.exit(__doc__)
    ended = asyncio.run(run(words))
    print("ended", ended.name, file=sys.stderr)
    return ended != Ended.COMPLETED


if __name__ == "__main__":
    sys.exit(main(sys.argv[1:]))
