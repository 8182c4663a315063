"""Odd messages of DCEP (RFC 8832), byte for byte: what this library's channels report of them, and what peers of other makes do (`docs/PEERS.md`). A
row is sent by an endpoint without channels, `Raw`, or by aiortc's transport; each row uses a stream of its own."""

import asyncio
import json
import os
from dataclasses import dataclass
from typing import List, Optional, Tuple

from browser import Trial
from carrier import PORT
from peer import Peer
from sctp_endpoint import Config, Endpoint

DCEP, TEXT, BINARY, NO_TEXT, NO_BINARY, TEXT_PART, BINARY_PART = 50, 51, 53, 56, 57, 54, 52
ACK = bytes.fromhex("02")


def opening(kind="00", value="00000000", label=b"a", protocol=b"", after=b"", lengths=None):
    """The bytes of a DATA_CHANNEL_OPEN of priority 256."""
    n, m = lengths or (len(label), len(protocol))
    return bytes.fromhex("03" + kind + "0100" + value) + n.to_bytes(2, "big") + m.to_bytes(2, "big") + label + protocol + after


OPEN = opening()
HI = (TEXT, b"hi")


@dataclass
class Row:
    """The messages (payload protocol identifier, bytes; unordered if there is a third), the events that this library's channels report, and what peers
    make of them: their channels as (label, ordered, maxRetransmits, maxPacketLifeTime), their messages, whether they send an ACK, and whether the
    connection lives on. A peer without a value is as Chromium. `own_half`: on a stream of the receiver's half."""

    name: str
    messages: List[Tuple]
    ours: List[str]
    chromium: Tuple
    firefox: Optional[Tuple] = None
    aiortc: Optional[Tuple] = None
    own_half: bool = False

    def of(self, peer):
        return getattr(self, peer) or self.chromium


def seen(channels=(), messages=(), acknowledged=True, lives=True):
    return list(channels), list(messages), acknowledged, lives


A, NAMELESS = ("a", True, None, None), ("", True, None, None)
NOTHING, OPENED, AND_HI, ENDED = seen((), (), False), seen([A]), seen([A], ["hi"]), seen((), (), False, False)


def refused(why):
    return ["Refused " + why, "Ignored WAS_REFUSED"]


ROWS = [
    Row("an OPEN, then a text", [(DCEP, OPEN), HI], ["Incoming a", "Message hi"], AND_HI),
    Row("no label", [(DCEP, opening(label=b"")), HI], ["Incoming ", "Message hi"], seen([NAMELESS], ["hi"])),
    Row("an OPEN on an open channel", [(DCEP, OPEN), (DCEP, opening(label=b"b")), HI], ["Incoming a", "Ignored OPEN_AGAIN", "Message hi"], AND_HI,
        aiortc=seen([A], lives=False)),
    Row("an OPEN on a stream of the receiver's half", [(DCEP, OPEN), HI], refused("WRONG_HALF"), AND_HI, own_half=True),
    Row("channel type 03", [(DCEP, opening("03")), HI], refused("UNKNOWN_TYPE"), AND_HI, firefox=NOTHING),
    Row("channel type 7f", [(DCEP, opening("7f")), HI], refused("UNKNOWN_TYPE"), AND_HI, firefox=NOTHING),
    Row("an OPEN of eleven bytes", [(DCEP, OPEN[:11]), HI], refused("OPEN_CUT_SHORT"), NOTHING),
    Row("an OPEN of one byte", [(DCEP, OPEN[:1]), HI], refused("OPEN_CUT_SHORT"), NOTHING),
    Row("a label cut short", [(DCEP, opening(lengths=(5, 0))), HI], refused("OPEN_CUT_SHORT"), NOTHING, aiortc=AND_HI),
    Row("a protocol cut short", [(DCEP, opening(protocol=b"p", lengths=(1, 2))), HI], refused("OPEN_CUT_SHORT"), NOTHING, aiortc=AND_HI),
    Row("bytes after the texts", [(DCEP, opening(after=b"zz")), HI], ["Incoming a", "Message hi"], AND_HI),
    Row("a label that isn't UTF-8", [(DCEP, opening(label=b"\xff\xfe")), HI], ["Incoming \ufffd\ufffd", "Message hi"], seen([NAMELESS], ["hi"]),
        firefox=seen(), aiortc=ENDED),
    Row("reliable, with the value 7", [(DCEP, opening("00", "00000007"))], ["Incoming a"], OPENED),
    Row("type 81, the value 70,000", [(DCEP, opening("81", "00011170"))], ["Incoming a unordered retransmits 70000"], seen([("a", False, 4464, None)]),
        aiortc=seen([("a", False, 70000, None)])),
    Row("type 02, the value 2^32 - 1", [(DCEP, opening("02", "ffffffff"))], ["Incoming a lifetime 4294967295"], seen([("a", True, None, 65535)]),
        aiortc=seen([("a", True, None, 4294967295)])),
    Row("an OPEN sent unordered", [(DCEP, OPEN, True), HI], ["Incoming a", "Message hi"], AND_HI),
    Row("an ACK without an OPEN", [(DCEP, ACK)], ["Ignored STRAY_ACK"], NOTHING, aiortc=ENDED),
    Row("an ACK of two bytes", [(DCEP, b"\x02\x00")], ["Refused ACK_WITH_MORE"], NOTHING, aiortc=ENDED),
    Row("an ACK on a channel of the peer's", [(DCEP, OPEN), (DCEP, ACK), HI], ["Incoming a", "Ignored STRAY_ACK", "Message hi"], AND_HI),
    Row("DCEP 00", [(DCEP, b"\x00")], ["Refused UNKNOWN_MESSAGE"], NOTHING),
    Row("DCEP 04", [(DCEP, b"\x04")], ["Refused UNKNOWN_MESSAGE"], NOTHING),
    Row("DCEP 04 on an open channel", [(DCEP, OPEN), (DCEP, b"\x04"), HI], ["Incoming a", "Ignored UNKNOWN_MESSAGE", "Message hi"], AND_HI),
    Row("a text before the OPEN", [HI, (DCEP, OPEN), (TEXT, b"ho")], ["Ignored NO_CHANNEL", "Incoming a", "Message ho"], seen([A], ["ho"]),
        firefox=seen([A], ["hi", "ho"])),
    Row("payload 52, a part of binary data", [(DCEP, OPEN), (BINARY_PART, b"\x01\x02")], ["Incoming a", "Ignored OTHER_PAYLOAD"], seen([A], [[1, 2]]),
        aiortc=OPENED),
    Row("payload 54, a part of a text", [(DCEP, OPEN), (TEXT_PART, b"hi")], ["Incoming a", "Ignored OTHER_PAYLOAD"], AND_HI, aiortc=OPENED),
    Row("payload 0", [(DCEP, OPEN), (0, b"hi")], ["Incoming a", "Ignored OTHER_PAYLOAD"], OPENED),
    Row("an empty text of two bytes", [(DCEP, OPEN), (NO_TEXT, b"AB")], ["Incoming a", "Message "], seen([A], [""])),
    Row("empty binary data of two bytes", [(DCEP, OPEN), (NO_BINARY, b"AB")], ["Incoming a", "Message b''"], seen([A], [[]])),
    Row("a text that isn't UTF-8", [(DCEP, OPEN), (TEXT, b"\xff\xfe")], ["Incoming a", "Message \ufffd\ufffd"], OPENED,
        firefox=seen([A], ["\ufffd\ufffd"]), aiortc=seen([A], lives=False)),
]


class Raw:
    """An endpoint whose user is its own DCEP: what `Peer` calls of channels, and `say`, by which any message is sent. Its events are messages."""

    def __init__(self):
        self.endpoint = Endpoint.listener(Config.for_data_channels(PORT, PORT), os.urandom(32))
        for name in ("handle_packet", "poll_transmit", "on_moment", "status", "path", "counts", "abort"):
            setattr(self, name, getattr(self.endpoint, name))

    def max_message_size(self):
        return 65536

    def events(self):
        while (stream := self.endpoint.readable()) is not None:
            yield self.endpoint.take(stream)

    def say(self, stream, payload_id, data, unordered=False):
        self.endpoint.send(stream, data, ordered=not unordered, payload_id=payload_id)


class RawPeer(Peer):
    def make_channels(self):
        return Raw()


class Answering:
    """The program above `Raw`: it acknowledges each channel that the peer opens, and keeps the messages received on other streams."""

    def __init__(self, say=print):
        self.received = {}

    def on_event(self, peer, message):
        if message.payload_id == DCEP and message.bytes[:1] == b"\x03":
            peer.channels.say(message.stream, DCEP, ACK)
        else:
            self.received.setdefault(message.stream, []).append((message.payload_id, message.bytes))


def stream_of(number, row):
    """The stream of a row: of the sender's half, the DTLS client's, or of the other."""
    return 2 * number + (201 if row.own_half else 200)


async def say_row(peer, program, number, wait=0.25):
    """Sends a row's messages; answers what was received on its stream, an ACK or not."""
    row, stream = ROWS[number], stream_of(number, ROWS[number])
    for message in row.messages:
        peer.channels.say(stream, *message)
        peer.wake()
        await asyncio.sleep(0.02)
    await asyncio.sleep(wait)
    return program.received.get(stream, [])


class OddTrial(Trial):
    """A page whose endpoint sends the rows: each as it is asked for by `/odd`."""

    def __init__(self):
        super().__init__(program=Answering, peer=RawPeer)

    def pages(self):
        return {**super().pages(), "/odd": self.odd}

    async def odd(self, query, body):
        received = await say_row(self.all[-1], self.programs[-1], int(query["row"]))
        return "application/json", json.dumps([[payload_id, data.hex()] for payload_id, data in received])


def of_page(report):
    """What a page saw of a row, as `Row` has it."""
    channels = [(it["label"], it["ordered"], it["maxRetransmits"], it["maxPacketLifeTime"]) for it in report["seen"]]
    return seen(channels, report["messages"], [DCEP, "02"] in report["endpoint"])


def differences(peer, found):
    """The rows in which a peer did something else than it was seen to do."""
    return [f"{row.name}: {it} in place of {row.of(peer)}" for row, it in zip(ROWS, found) if it != row.of(peer)]


async def at_page(browser, room):
    """What a browser does with each row."""
    result = await OddTrial().run(browser, f"trial=odd&rows={len(ROWS)}", room)
    if "fault" in result:
        return [result["fault"]], ""
    return differences(browser, [of_page(it) for it in result["rows"]]), f"{len(result['rows'])} rows"
