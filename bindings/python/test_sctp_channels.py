"""The data channels of two endpoints in one program: python3 -m unittest, with SCTP_ENDPOINT_LIBRARY."""

import unittest

from sctp_channels import BufferedAmountLow, ChannelReason, Channels, Closed, Ignored, Incoming, MessageReceived, Opened, RefusedOpening
from sctp_endpoint import Config, Draw, Ended, Endpoint, Fate, Refused, Result, State


def exchange(a, b, now=0):
    """Packets go to and fro until neither side has one."""
    for turn in range(40):
        sender, receiver = (a, b) if turn % 2 == 0 else (b, a)
        while (sent := sender.poll_transmit(now)) is not None:
            answer = receiver.handle_packet(now, sent.packet).answer
            if answer is not None:
                sender.handle_packet(now, answer)


def opened():
    """The DTLS client, which is the listener, and the server, which calls."""
    client = Channels(Endpoint.listener(Config.for_data_channels(5001, 5000), bytes(range(32))), is_dtls_client=True)
    server = Channels(Endpoint.caller(Config.for_data_channels(5000, 5001)), is_dtls_client=False)
    server.connect(0)
    exchange(server, client)
    return client, server


class Talk(unittest.TestCase):
    def refused(self, result, call, *arguments, **more):
        with self.assertRaises(Refused) as raised:
            call(*arguments, **more)
        self.assertEqual(raised.exception.result, result)

    def told(self, channels, *events):
        self.assertEqual(list(channels.events()), list(events))

    def introduce(self, opener, other, channel):
        """The other side learns of a channel, and acknowledges it: that is due once it was told."""
        exchange(opener, other)
        self.assertEqual([event.stream for event in other.events()], [channel])
        exchange(opener, other)
        self.told(opener, Opened(channel))

    def test_a_channel_is_opened_used_and_closed_twice(self):
        client, server = opened()
        self.assertEqual(client.status().state, State.ESTABLISHED)
        for _ in range(2):
            self.assertEqual(client.open("chat", "p", max_retransmits=3, ordered=False, priority=512), 0)
            exchange(client, server)
            self.told(server, Incoming(0, "chat", "p", False, 3, None, 512))
            exchange(client, server)
            self.told(client, Opened(0))
            for content in ("hi \u00fc", b"\0\1", "", b"", "x" * 65536, bytes(65536)):
                client.send(0, 0, content)
                exchange(client, server)
                self.told(server, MessageReceived(0, content))
            server.trim()
            server.send(0, 0, "ho")
            client.close(0)
            self.refused(Result.NO_CHANNEL, client.close, 0)
            self.refused(Result.NO_CHANNEL, client.send, 0, 0, "late")
            exchange(client, server)
            self.told(server, Closed(0))
            exchange(client, server)
            self.told(client, MessageReceived(0, "ho"), Closed(0))

    def test_nothing_is_opened_or_closed_before_the_association(self):
        client = Channels(Endpoint.caller(Config.for_data_channels()), True)
        self.refused(Result.NOT_OPEN, client.open, "a")
        self.refused(Result.NOT_OPEN, client.open_negotiated, 0)
        self.refused(Result.NOT_OPEN, client.close, 0)
        used = Endpoint.opened(Config.for_data_channels(), Draw(7, 100), Draw(9, 500))
        used.send(0, b"x")
        self.refused(Result.BAD_STATE, Channels, used, True)
        self.assertEqual(used.status().queued, 1)

    def test_streams_are_by_half(self):
        client, server = opened()
        self.assertEqual([client.open("a"), client.open("b"), server.open("c"), client.open("d", stream=10)], [0, 2, 1, 10])
        self.refused(Result.WRONG_HALF, client.open, "e", stream=1)
        self.refused(Result.USED, client.open, "e", stream=2)
        self.refused(Result.NO_STREAM, client.open, "e", stream=1024)
        self.refused(Result.TOO_LONG, client.open, "e" * 65525)
        self.refused(Result.OUT_OF_RANGE, client.open, "e", max_packet_lifetime=65536)
        client.open_negotiated(5, ordered=False, max_packet_lifetime=100)
        server.open_negotiated(5)
        self.refused(Result.USED, server.open_negotiated, 5)
        client.send(0, 5, b"")
        exchange(client, server)
        self.assertIn(MessageReceived(5, b""), list(server.events()))
        self.refused(Result.NO_CHANNEL, client.send, 0, 1023, "x")

    def test_what_is_buffered_is_counted_and_told(self):
        client, server = opened()
        channel = client.open("bulk")
        self.introduce(client, server, channel)
        self.assertEqual(client.max_message_size(), 1 << 18)
        self.assertEqual([client.buffered_amount(channel), client.buffered_amount(77)], [0, 0])
        client.set_buffered_amount_low_threshold(channel, 1000)
        self.refused(Result.NO_CHANNEL, client.set_buffered_amount_low_threshold, 77, 0)
        tickets = [client.send(0, channel, bytes(1000)) for _ in range(4)]
        self.assertEqual(client.buffered_amount(channel), 4000)
        self.assertEqual(client.abandon(tickets[3]), Fate.WITHDRAWN)
        self.assertEqual(client.buffered_amount(channel), 3000)
        exchange(client, server)
        self.assertEqual(client.buffered_amount(channel), 0)
        self.told(client, BufferedAmountLow(channel))

    def test_odd_messages_are_refused_or_ignored(self):
        endpoint = Endpoint.opened(Config(5001, 5000, stream_reset=True), Draw(9, 500), Draw(7, 100))
        channels = Channels(Endpoint.opened(Config(5000, 5001, stream_reset=True), Draw(7, 100), Draw(9, 500)), is_dtls_client=True)
        for stream, payload_id, data in ((1, 50, b"\2\0"), (1, 51, b"A"), (3, 51, b"A"), (5, 50, b"\3\3"), (2, 50, bytes.fromhex("030001000000000000000000"))):
            endpoint.send(stream, data, payload_id=payload_id)
        exchange(endpoint, channels)
        self.assertEqual(
            sorted(channels.events(), key=lambda event: event.stream),
            [
                RefusedOpening(1, ChannelReason.ACK_WITH_MORE),
                Ignored(1, ChannelReason.WAS_REFUSED),
                RefusedOpening(2, ChannelReason.WRONG_HALF),
                Ignored(3, ChannelReason.NO_CHANNEL),
                RefusedOpening(5, ChannelReason.OPEN_CUT_SHORT),
            ],
        )

    def test_channels_close_with_the_association(self):
        client, server = opened()
        channel = client.open("chat")
        self.introduce(client, server, channel)
        self.assertEqual(server.handle_packet(0, client.abort(b"enough")).reason, None)
        self.assertEqual([client.status().ended, server.status().ended], [Ended.ABORTED_HERE, Ended.ABORTED])
        self.told(client, Closed(channel))
        self.told(server, Closed(channel))
        self.assertGreater(server.counts().packets_in, 0)
        self.assertEqual(server.path().in_flight, 0)

    def test_an_endpoint_is_taken_over_once(self):
        endpoint = Endpoint.caller(Config.for_data_channels())
        Channels(endpoint, is_dtls_client=True)
        self.refused(Result.MISUSE, endpoint.shutdown)
        self.refused(Result.MISUSE, Channels, endpoint, is_dtls_client=True)

    def test_wrong_arguments_raise(self):
        client, _ = opened()
        for call, arguments in ((client.open, ("a", b"")), (client.open, (b"a",)), (client.send, (0, 0, 5))):
            with self.assertRaises(TypeError):
                call(*arguments)
        for arguments in ({"stream": 65536}, {"max_retransmits": -1}, {"max_retransmits": 1, "max_packet_lifetime": 1}, {"priority": 65536}):
            with self.assertRaises(ValueError):
                client.open("a", **arguments)


if __name__ == "__main__":
    unittest.main()
