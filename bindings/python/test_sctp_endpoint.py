"""Two endpoints in one program: python3 -m unittest, with SCTP_ENDPOINT_LIBRARY."""

import hashlib
import hmac
import unittest

from sctp_endpoint import Config, Draw, Ended, Endpoint, Fate, Reason, Refused, Result, State, abort_cause, key_derived, peek_packet, version


def exchange(a, b, now):
    """Packets go to and fro until neither endpoint has one."""
    tickets = []
    for turn in range(40):
        sender, receiver = (a, b) if turn % 2 == 0 else (b, a)
        while (sent := sender.poll_transmit(now)) is not None:
            tickets += sent.tickets
            answer = receiver.handle_packet(now, sent.packet).answer
            if answer is not None:
                sender.handle_packet(now, answer)
    return tickets


def opened():
    caller = Endpoint.caller(Config(5000, 5001))
    listener = Endpoint.listener(Config(5001, 5000), bytes(range(32)))
    caller.connect(0)
    exchange(caller, listener, 0)
    return caller, listener


class Talk(unittest.TestCase):
    def refused(self, result, call, *arguments):
        with self.assertRaises(Refused) as raised:
            call(*arguments)
        self.assertEqual(raised.exception.result, result)

    def test_two_endpoints_open_talk_and_close(self):
        caller, listener = opened()
        self.assertEqual(caller.status().state, State.ESTABLISHED)
        long = bytes(range(256)) * 256
        self.assertEqual([caller.send(3, b"Hi", payload_id=51), caller.send(4, long, ordered=False)], [1, 2])
        status = caller.status()
        self.assertEqual([status.queued, status.queued_bytes, status.peer_window], [2, 65538, 4 << 20])
        self.assertEqual(exchange(caller, listener, 10), [1, 2])
        caller.trim()
        listener.trim()
        self.assertEqual([listener.readable(), listener.readable(4), listener.readable(5)], [3, 4, None])
        self.assertEqual(tuple(listener.take(3)), (3, True, 0, 51, b"Hi"))
        self.assertEqual(listener.status().held_bytes, 65536)
        self.assertEqual(listener.take(4).bytes, long)
        self.assertIsNone(listener.take(4))
        self.assertTrue(caller.acknowledged(2) and not caller.abandoned(2))
        self.assertEqual(caller.abandon(2), Fate.ACKNOWLEDGED)
        caller.shutdown()
        exchange(caller, listener, 20)
        self.assertEqual([caller.status().ended, listener.status().ended], [Ended.COMPLETED, Ended.COMPLETED])

    def test_refusals_say_why(self):
        self.refused(Result.BAD_BUFFER, Endpoint.caller, Config(5000, 5001, buffer=1))
        caller, listener = opened()
        self.refused(Result.BAD_STATE, caller.connect, 0)
        self.refused(Result.BAD_DRAW, caller.connect, 0, Draw(0, 0))
        self.refused(Result.NO_SUCH_STREAM, caller.send, 64, b"x")
        self.refused(Result.EMPTY, caller.send, 0, b"")
        self.refused(Result.TOO_LONG, caller.send, 0, bytes(65537))
        self.assertEqual(caller.handle_packet(0, b"x").reason, Reason.FAULT)
        abort = caller.abort(b"enough")
        self.assertEqual(abort_cause(abort), (12, b"enough"))
        self.assertIsNone(abort_cause(b"enough"))
        self.assertEqual(peek_packet(abort)[:2], (5000, 5001))
        self.assertIsNone(peek_packet(abort[:11]))
        self.assertEqual(str(Refused(Result.QUEUE_FULL)), "QUEUE_FULL: 1,024 messages are queued: send again after the next SACK")
        self.assertEqual(version(), "0.1.0")
        self.assertIsNone(listener.handle_packet(0, abort).reason)
        self.assertEqual([caller.status().ended, listener.status().ended], [Ended.ABORTED_HERE, Ended.ABORTED])
        self.refused(Result.NOT_OPEN, caller.send, 0, b"x")

    def test_a_tag_is_told_while_packets_carry_it(self):
        caller, listener = Endpoint.caller(Config(5000, 5001)), Endpoint.listener(Config(5001, 5000), bytes(range(32)))
        self.assertEqual([caller.own_tag(), listener.own_tag()], [None, None])
        caller.connect(0, Draw(7, 100))
        self.assertEqual(caller.own_tag(), 7)
        exchange(caller, listener, 0)
        packet = caller.abort(b"")
        self.assertEqual([peek_packet(packet).tag, caller.own_tag()], [listener.own_tag(), None])

    def test_keys_are_derived_and_none_is_zero(self):
        self.refused(Result.ZERO_KEY, Endpoint.listener, Config(5001, 5000), bytes(32))
        self.refused(Result.ZERO_KEY, key_derived, bytes(32), b"")
        for data in (b"", b"127.0.0.1 9899", bytes(1000)):
            self.assertEqual(key_derived(bytes(range(32)), data), hmac.new(bytes(range(32)), data, hashlib.sha256).digest())
        with self.assertRaises(ValueError):
            key_derived(bytes(31), b"")

    def test_a_stream_is_reset(self):
        draws = Draw(7, 100), Draw(9, 500)
        a = Endpoint.opened(Config(5000, 5001, stream_reset=True), *draws)
        b = Endpoint.opened(Config(5001, 5000, stream_reset=True), *reversed(draws))
        a.send(3, b"Hi")
        self.refused(Result.NO_SUCH_STREAM, a.reset, 64)
        a.reset(3)
        self.refused(Result.RESETTING, a.send, 3, b"Ho")
        self.assertEqual([a.resetting(3), a.resetting(4), a.status().resetting], [True, False, 1])
        exchange(a, b, 10)
        self.assertEqual([a.resetting(3), a.status().resetting], [False, 0])
        self.assertEqual([b.take_reset(), b.take_reset()], [(3, 1), None])
        a.send(3, b"Ho")
        exchange(a, b, 10)
        self.assertEqual([b.take(3).bytes, b.take(3).bytes], [b"Hi", b"Ho"])
        self.refused(Result.BAD_STATE, opened()[0].reset, 0)

    def test_wrong_arguments_raise(self):
        for key in (b"", bytes(31), bytes(33)):
            with self.assertRaises(ValueError):
                Endpoint.listener(Config(5001, 5000), key)
        with self.assertRaises(TypeError):
            Config(5000, 5001, no_such_option=True)
        for wrong in ({"buffer": 2**32 + 65536}, {"outbound": 65536 + 1}, {"inbound": -1}):
            with self.assertRaises(ValueError):
                Config(5000, 5001, **wrong)
        with self.assertRaises(ValueError):
            Config(65536 + 5000, 5001)
        with self.assertRaises(ValueError):
            Config(5000, 5001).buffer = 2**32
        with self.assertRaises(AttributeError):
            Config(5000, 5001).bufer = 65536
        with self.assertRaises(ValueError):
            Draw(2**32 + 7)
        caller, listener = opened()
        for call, arguments in (
            (caller.send, (65536, b"x")),
            (caller.send, (0, b"x", True, 0, None, 65536)),
            (caller.on_moment, (-1,)),
            (caller.on_moment, (2**64,)),
            (caller.readable, (65536,)),
            (caller.take, (-1,)),
            (caller.abandon, (2**64,)),
        ):
            with self.assertRaises(ValueError):
                call(*arguments)
        for call, arguments in ((caller.send, (0, "x")), (caller.send, (0, 5)), (caller.on_moment, (1.5,)), (listener.handle_packet, (0, "x"))):
            with self.assertRaises(TypeError):
                call(*arguments)

    def test_bytes_may_be_a_bytearray_or_a_memoryview(self):
        caller, listener = opened()
        for data in (b"Hi", bytearray(b"Hi"), memoryview(b"-Hi-")[1:3]):
            caller.send(0, data)
        while (sent := caller.poll_transmit(0)) is not None:
            listener.handle_packet(0, memoryview(bytearray(sent.packet)))
        self.assertEqual([listener.take(0).bytes for _ in range(3)], [b"Hi"] * 3)

    def test_bytes_of_a_message_in_part_are_counted(self):
        caller, listener = opened()
        caller.send(0, bytes(2000))
        listener.handle_packet(10, caller.poll_transmit(10).packet)
        status = listener.status()
        self.assertTrue(0 < status.reassembly_bytes == status.held_bytes)
        exchange(caller, listener, 10)
        self.assertEqual((listener.status().held_bytes, listener.status().reassembly_bytes), (2000, 0))

    def test_long_messages_on_17_streams_at_once_arrive(self):
        caller, listener = opened()
        for stream in range(17):
            caller.send(stream, bytes([stream]) * 65536)
        for turn in range(60):
            exchange(caller, listener, 1000 * turn)
            caller.on_moment(1000 * turn)
        self.assertEqual([listener.take(stream).bytes for stream in range(17)], [bytes([stream]) * 65536 for stream in range(17)])

    def test_endpoints_opened_without_packets_talk(self):
        a = Endpoint.opened(Config(5000, 5001), Draw(7, 100), Draw(9, 500))
        b = Endpoint.opened(Config(5001, 5000), Draw(9, 500), Draw(7, 100))
        b.send(0, b"Hi", until=50)
        b.on_moment(60)
        self.assertEqual(b.abandon(1), Fate.WITHDRAWN)
        b.send(0, b"Ho")
        exchange(a, b, 60)
        self.assertEqual(a.take(0).bytes, b"Ho")

    def test_packets_and_what_they_carry_are_counted(self):
        a = Endpoint.opened(Config(5000, 5001), Draw(7, 100), Draw(9, 500))
        b = Endpoint.opened(Config(5001, 5000), Draw(9, 500), Draw(7, 100))
        a.send(0, b"Hi")
        lost = a.poll_transmit(0).packet
        a.on_moment(1000)
        first = a.poll_transmit(1000).packet
        b.handle_packet(1000, first)
        sack = b.poll_transmit(1000).packet
        a.handle_packet(1000, sack)
        a.handle_packet(1000, first[:11])
        dropped = dict.fromkeys(Reason, 0)
        self.assertEqual(a.counts(), (2, len(lost) + len(first), 2, len(sack) + 11, 1, 1, 0, 0, 1, 0, {**dropped, Reason.FAULT: 1}))
        self.assertEqual(b.counts(), (1, len(sack), 1, len(first), 0, 0, 0, 1, 0, 0, dropped))

    def test_a_message_is_abandoned_at_its_limit_of_retransmissions(self):
        caller, listener = opened()
        self.assertEqual([caller.send(0, b"Hi", max_retransmits=0), caller.send(0, b"Ho", max_retransmits=1)], [1, 2])
        while caller.poll_transmit(10) is not None:
            pass  # lost
        caller.on_moment(5000)
        self.assertEqual([caller.abandoned(ticket) for ticket in (1, 2)], [True, False])
        exchange(caller, listener, 5000)
        self.assertEqual(listener.take(0).bytes, b"Ho")
        self.assertIsNone(listener.take(0))
        self.refused(Result.NO_SUCH_STREAM, caller.send, 64, b"x", True, 0, None, 0)


if __name__ == "__main__":
    unittest.main()
