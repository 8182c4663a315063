"""An endpoint of this library with its data channels (RFC 8831) over a carrier: the loop that a program writes."""

import asyncio
import collections
import os

from carrier import PORT, Carrier, now
from sctp_channels import Channels
from sctp_endpoint import Config, Endpoint, Refused, Result, State

PACKETS_A_TURN = 16  # then what was received is looked at
LONGEST_WAIT = 0.1  # seconds: `next_moment` doesn't count the ends of lifetimes


class Peer(Carrier):
    """An association with one browser. The application has `on_event(peer, event)`, called for each event of the channels, and may use `channels` at
    any time in the same thread; what it does outside of `on_event` it follows by `wake()`."""

    def __init__(self, application, **how):
        super().__init__(**how)
        self.application, self.channels, self._woken = application, self.make_channels(), asyncio.Event()
        self.longest = self.channels.max_message_size()
        self._waiting, self._aborts = collections.deque(), []  # messages that the queue had no place for, and packets that aborts returned

    def make_channels(self):
        """The endpoint is the listener, whatever its role in DTLS: a browser always sends an INIT of its own. The role in DTLS says which streams it
        opens channels on: even ones as the client, odd ones as the server (RFC 8832, 6)."""
        return Channels(Endpoint.listener(self.config(), os.urandom(32)), is_dtls_client=not self.server)

    def config(self):
        return Config.for_data_channels(PORT, PORT)

    async def run(self):
        """One turn after the other: the time, what happened, what is to be sent, and then it waits. The last turn reports that the channels are closed."""
        over = False
        while not over:
            self._woken.clear()
            over = self._ended()
            self.channels.on_moment(now())
            for event in self.channels.events():
                self.application.on_event(self, event)
            self._send_waiting()
            more, until = await self._transmit(), self.channels.status().next_moment
            await self._wait(0 if more else LONGEST_WAIT if until is None else min(max(until - now(), 0) / 1000, LONGEST_WAIT))

    def _ended(self):
        """Whether the association is over. Without DTLS it is."""
        if not self.connected() and self.channels.status().state == State.ESTABLISHED:
            self.channels.abort(b"the browser has gone")
        return not self.connected() or self.channels.status().ended is not None

    async def _transmit(self):
        """Sends some of the packets that may be sent. True if there may be more."""
        while self._aborts:
            await self.transmit(self._aborts.pop(0))
        for _ in range(PACKETS_A_TURN):
            sent = self.channels.poll_transmit(now())
            if sent is None:
                return False
            await self.transmit(sent.packet)
        return True

    async def _wait(self, seconds):
        if seconds == 0:
            await asyncio.sleep(0)
            return
        try:
            await asyncio.wait_for(self._woken.wait(), seconds)
        except asyncio.TimeoutError:
            pass

    async def on_packet(self, packet):
        verdict = self.channels.handle_packet(now(), packet)
        if verdict.answer is not None:
            await self.transmit(verdict.answer)
        self.wake()

    def wake(self):
        """The application did something: the loop goes on."""
        self._woken.set()

    def send(self, stream, data):
        """Sends a text or bytes on a channel. What the queue has no place for, of 1,024 messages, waits here; what its channel doesn't take any more,
        since it is being closed, is dropped."""
        self._waiting.append((stream, data))
        self._send_waiting()
        self.wake()

    def _send_waiting(self):
        while self._waiting:
            try:
                self.channels.send(now(), *self._waiting[0])
            except Refused as refused:
                if refused.result == Result.QUEUE_FULL:
                    return
            self._waiting.popleft()

    def abort(self, reason):
        """Ends the association. A browser tells its page so; of a SHUTDOWN Chromium says nothing."""
        self._aborts.append(self.channels.abort(reason))
        self.wake()
