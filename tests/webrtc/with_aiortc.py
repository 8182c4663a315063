"""aiortc's RTCPeerConnection at the other end, in this process: what it sends arrives at channels of this library and comes back, and odd messages go
both ways."""

import asyncio
import hashlib
import os

from aiortc import RTCPeerConnection, RTCSessionDescription

import odd
from carrier import Network
from peer import Peer
from sctp_channels import Closed, Ignored, Incoming, MessageReceived, Opened
from trials import SENT, Noting


class Meeting:
    """One connection: aiortc offers and has opened a channel, `control`; the endpoint answers, as the DTLS client."""

    def __init__(self, lost=0.0, peer=Peer, program=Noting):
        self.program, self.pc, self.came = program(lambda text: None), RTCPeerConnection(), []
        self.peer = peer(self.program, network=Network(lost), loopback=True)
        self.pc.on("datachannel", self.came.append)

    async def __aenter__(self):
        self.control = self.pc.createDataChannel("control")
        await self.pc.setLocalDescription(await self.pc.createOffer())
        answer = await self.peer.answer(self.pc.localDescription.sdp)
        await self.pc.setRemoteDescription(RTCSessionDescription(answer, "answer"))
        await until(lambda: self.control.readyState == "open", 20)
        return self

    async def __aexit__(self, *fault):
        await self.pc.close()
        try:
            await asyncio.wait_for(self.peer.over.wait(), 5)
        except asyncio.TimeoutError:
            pass

    async def open(self, label, **parameters):
        channel = self.pc.createDataChannel(label, **parameters)
        back = []
        channel.on("message", back.append)
        await until(lambda: channel.readyState == "open", 20)
        return channel, back


async def until(test, seconds):
    """Waits until a test holds. True if it does."""
    for _ in range(int(seconds * 200)):
        if test():
            return True
        await asyncio.sleep(0.005)
    return False


async def file(lost, length):
    """Bytes there and back: the sums of both sides."""
    async with Meeting(lost) as meeting:
        channel, back = await meeting.open("file")
        data = os.urandom(length)
        channel.send("begin")
        for k in range(0, length, 16384):
            channel.send(data[k : k + 16384])
        channel.send("end")
        await until(lambda: back, 120)
        channel.send("fetch")
        await until(lambda: len(back) > 1 and isinstance(back[-1], str), 120)
        wanted = hashlib.sha256(data).hexdigest()
        if back[:1] + back[-1:] == [wanted, wanted] and b"".join(back[1:-1]) == data:
            return [], f"{length} bytes each way"
        return [f"not the same: {len(back)} answers, {sum(map(len, back))} bytes"], ""


async def kinds():
    """Text and binary on channels of all kinds, opened by either side."""
    async with Meeting() as meeting:
        opened = [await meeting.open("", protocol="p"), await meeting.open("ü", ordered=False, maxRetransmits=3)]
        meeting.control.send("negotiated 100")
        opened.append(await meeting.open("agreed", negotiated=True, id=100))
        meeting.control.send("all")
        await until(lambda: len(meeting.came) == 4, 10)
        for channel in meeting.came:
            opened.append((channel, []))
            channel.on("message", opened[-1][1].append)
        for channel, _ in opened:
            for data in SENT:
                channel.send(bytes(data) if isinstance(data, list) else data)
        await until(lambda: all(len(back) == len(SENT) for _, back in opened), 10)
        plain = [[list(it) if isinstance(it, bytes) else it for it in back] for _, back in opened]
        faults = [f"{channel.label!r}: came back {back}" for (channel, _), back in zip(opened, plain) if sorted(back, key=str) != sorted(SENT, key=str)]
        return faults or ([] if len(opened) == 7 else [f"{len(opened)} channels"]), f"{len(opened)} channels"


async def many(rounds):
    """One channel opened, used and closed again and again, by either side in turn; nothing is lost."""
    async with Meeting() as meeting:
        for k in range(rounds):
            channel, back = await meeting.open("again")
            channel.send(str(k))
            await until(lambda: back == [str(k)], 10)
            if k % 2:
                channel.close()
            else:
                meeting.control.send("close again")
            if not await until(lambda: channel.readyState == "closed", 10) or back != [str(k)]:
                return [f"round {k}: {channel.readyState}, {back}"], ""
        await until(lambda: sum(isinstance(it, Closed) for it in meeting.program.events) == rounds, 5)
        closed = sum(isinstance(it, Closed) for it in meeting.program.events)
        return [] if closed == rounds else [f"{closed} of {rounds} reported closed"], f"{rounds} channels"


def words(event):
    """An event as `Row.ours` has it."""
    if isinstance(event, Incoming):
        limits = f" retransmits {event.max_retransmits}" * (event.max_retransmits is not None)
        limits += f" lifetime {event.max_packet_lifetime}" * (event.max_packet_lifetime is not None)
        return f"Incoming {event.label}" + " unordered" * (not event.ordered) + limits
    if isinstance(event, (Opened, Closed)):
        return type(event).__name__
    if isinstance(event, MessageReceived):
        return f"Message {event.content}"
    return ("Ignored " if isinstance(event, Ignored) else "Refused ") + event.reason.name


async def passed_over(stream, payload_id, data):
    """In place of what aiortc does with a message."""


async def odd_to_ours():
    """The rows, sent by aiortc's transport, and what the channels report of them."""
    faults = []
    async with Meeting() as meeting:
        meeting.pc.sctp._data_channel_receive = passed_over  # an ACK without a channel of its own would end its connection
        for number, row in enumerate(odd.ROWS):
            stream = odd.stream_of(number, row) ^ 1  # aiortc's side has the odd ones
            for payload_id, data, *unordered in row.messages:
                await meeting.pc.sctp._send(stream, payload_id, data, ordered=not unordered)
            await asyncio.sleep(0.1)
            said = [words(it) for it in meeting.program.events if it.stream == stream]
            if said != row.ours:
                faults.append(f"{row.name}: {said} in place of {row.ours}")
    return faults, f"{len(odd.ROWS)} rows"


async def odd_to_theirs():
    """What aiortc does with each row, in a connection of its own."""
    return odd.differences("aiortc", [await odd_row(number) for number in range(len(odd.ROWS))]), f"{len(odd.ROWS)} rows"


async def odd_row(number):
    got = []
    async with Meeting(peer=odd.RawPeer, program=odd.Answering) as meeting:
        meeting.pc.on("datachannel", lambda channel: channel.on("message", lambda it: got.append(list(it) if isinstance(it, bytes) else it)))
        received = await odd.say_row(meeting.peer, meeting.program, number, 0.1)
        channels = [(it.label, it.ordered, it.maxRetransmits, it.maxPacketLifeTime) for it in meeting.came]
        return odd.seen(channels, got, (odd.DCEP, odd.ACK) in received, meeting.pc.sctp.transport.state == "connected")
