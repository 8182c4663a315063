"""The program behind the page of serve.py: it sends each message back on its channel, but for those of two labels. On `control` a text is a wish:
`open LABEL`, `close LABEL`, `negotiated ID`, `abort`. On `file` binary messages are the parts of a file, `end` is answered by its SHA-256, and `fetch` by
the file and its SHA-256."""

import hashlib
import os

from sctp_channels import BufferedAmountLow, Closed, Incoming, MessageReceived, Opened

PART = 16384  # bytes of a file in a message: all browsers take as much
HIGH, LOW = 1 << 20, 1 << 18  # bytes: a file is sent on from LOW to HIGH. The queue holds 1,024 messages
LARGEST_FILE = 64 << 20


class Fetch:
    """A file that is being sent on a channel: as much as the queue should hold, and more once the buffered amount is low."""

    def __init__(self, peer, stream, data):
        self.peer, self.stream, self.data, self.at = peer, stream, data, 0
        peer.channels.set_buffered_amount_low_threshold(stream, LOW)
        self.go_on()

    def go_on(self):
        while self.at < len(self.data) and self.peer.channels.buffered_amount(self.stream) < HIGH:
            self.peer.send(self.stream, self.data[self.at : self.at + PART])
            self.at += PART
        if self.data and self.at >= len(self.data):
            self.peer.send(self.stream, hashlib.sha256(self.data).hexdigest())
            self.data = b""


class Program:
    """What the endpoint's application does with the events of one peer's channels."""

    def __init__(self, say=print):
        self.say, self.labels, self.file, self.fetches = say, {}, bytearray(), {}

    def on_event(self, peer, event):
        if isinstance(event, Incoming):
            self.labels[event.stream] = event.label
            self.say(f"channel {event.stream}, {self.labels[event.stream]!r}: opened by the page")
        elif isinstance(event, Opened):
            self.say(f"channel {event.stream}, {self.labels.get(event.stream)!r}: open at the page, too")
        elif isinstance(event, MessageReceived):
            self.on_message(peer, event.stream, event.content)
        elif isinstance(event, BufferedAmountLow):
            self.fetches[event.stream].go_on()
        elif isinstance(event, Closed):
            self.fetches.pop(event.stream, None)
            self.say(f"channel {event.stream}, {self.labels.pop(event.stream, None)!r}: closed")
        else:
            self.say(f"channel {event.stream}: {event}")

    def on_message(self, peer, stream, data):
        label = self.labels.get(stream)
        if label == "control" and isinstance(data, str):
            self.on_wish(peer, *data.partition(" ")[::2])
        elif label == "file":
            self.on_file(peer, stream, data)
        else:
            peer.send(stream, data)

    def on_wish(self, peer, verb, label):
        if verb == "open":
            self.labels[peer.channels.open(label)] = label
        elif verb == "negotiated":
            self.labels[int(label)] = "negotiated"
            peer.channels.open_negotiated(int(label))
        elif verb == "close":
            for stream in [stream for stream, it in self.labels.items() if it == label]:
                peer.channels.close(stream)
        elif verb == "abort":
            peer.abort(b"the page asked for it")

    def on_file(self, peer, stream, data):
        if data == "begin":
            self.file = bytearray()
        elif data == "end":
            peer.send(stream, hashlib.sha256(self.file).hexdigest())
        elif data == "fetch":
            self.fetches[stream] = Fetch(peer, stream, bytes(self.file) or os.urandom(10_000_000))
        elif isinstance(data, bytes) and len(self.file) + len(data) <= LARGEST_FILE:
            self.file += data
