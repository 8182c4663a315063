#!/usr/bin/env python3
"""The transcript that the model gives to cases of a sender and a receiver, and of checksums, in the form of crates/sctp_call_rows.

calls.py [CASES [TRANSCRIPT]]: by default the two files of that crate. Other cases without a format,
of numbers, bytes and cookies, are taken over from TRANSCRIPT.
"""

import os
import re
import struct
import sys

import wire
from endpoint import Writer
from receiver import BAD, MOVED, OUT_OF_DATE, Receiver
from sender import Sender

CRATE = os.path.join(os.path.dirname(os.path.abspath(__file__)), '..', '..', 'crates', 'sctp_call_rows')
GREATEST_PACKET, GREATEST_FRAGMENT = 1_500, 1_400
QUEUED = {-1: 'no such stream', -2: 'empty', -3: 'too long', -4: 'queue full', -5: 'spent', -8: 'resetting'}
SACKED = {None: 'ok', 1: 'stale', 2: 'beyond', 3: 'bad block'}
FATES = {1: 'withdrawn', 2: 'abandoned', 3: 'acknowledged', 4: 'unknown', 5: 'reliable'}
TAKEN = {1: 'taken', 2: 'duplicate', 3: 'ahead', 4: 'no room', 5: 'passed', 6: 'no such stream'}
FORWARDED = {MOVED: 'moved', OUT_OF_DATE: 'out of date', BAD: 'bad'}
FLAGS = {'I': 8, 'U': 4, 'B': 2, 'E': 1}
POLYNOMIAL = 0x11EDC6F41
SUMS_OF_LINE = 8
SHOWN_STREAMS = 8
PIECES, FORWARDS = (wire.DATA, wire.I_DATA), (wire.FORWARD_TSN, wire.I_FORWARD_TSN)


class NoCall(Exception):
    """The line says no call; or its call has nothing to go to, where `answer` says so."""

    def __init__(self, answer=None):
        super().__init__()
        self.answer = answer


def number(word, limit):
    if not re.fullmatch('[0-9]+', word) or int(word) > limit:
        raise NoCall
    return int(word)


def bytes_of(word):
    if word == '-':
        return b''
    if re.fullmatch(r'\+[0-9]+', word):
        return bytes(k % 251 for k in range(int(word[1:])))
    if not re.fullmatch('([0-9a-fA-F]{2})*', word):
        raise NoCall('not a call')
    return bytes.fromhex(word)


def mixed(count):
    """So many bytes without a pattern: the high 8 bits of the numbers x, 1,664,525 x + 1,013,904,223, .. modulo 2^32, from x = 1."""
    x, found = 1, bytearray()
    for _ in range(count):
        found.append(x >> 24)
        x = (1_664_525 * x + 1_013_904_223) % 2**32
    return bytes(found)


def divided(rest, bits):
    """The remainder of a dividend: of its beginning this one is left, and these bits come behind it, the highest power first."""
    for bit in bits:
        rest = rest << 1 | bit
        if rest >> 32:
            rest ^= POLYNOMIAL
    return rest


def checksums(data):
    """The CRC32c of the first bytes of these, of none, one and so on up to all (RFC 9260, appendix A), by long division: the bits, of each byte
    the lowest first, and 32 zeros behind them, of which the first 32 are flipped, divided by the polynomial; of what is left each bit is
    flipped, and its highest power is the number's lowest bit.
    """
    rest, found = 0, []
    for count in range(len(data) + 1):
        places = range(8 * count, 8 * count + 32)
        found.append(int('{:032b}'.format(divided(rest, [int(place < 32) for place in places]))[::-1], 2) ^ 0xFFFFFFFF)
        if count < len(data):
            rest = divided(rest, [(data[count] >> place % 8 & 1) ^ (place < 32) for place in places[:8]])
    return found


def pairs_of(words, limit):
    for word in words:
        if not re.fullmatch('[0-9]+-[0-9]+', word) or any(int(part) > limit for part in word.split('-')):
            raise NoCall('not a call')
    return [tuple(int(part) for part in word.split('-')) for word in words]


def shown(written):
    return written.hex() if len(written) <= 32 else '%s..%d' % (written[:24].hex(), len(written))


def shown_request(sender):
    """The request that waits for its response, of many streams the first ones."""
    request = sender.resets.request()
    if request is None:
        return 'none'
    sequence_number, last, streams = request
    named = ''.join(' %d' % stream for stream in streams[:SHOWN_STREAMS])
    more = ' ..%d' % len(streams) if len(streams) > SHOWN_STREAMS else ''
    return 'request %d %d%s%s' % (sequence_number, last, named, more)


def shown_answers(receiver):
    return ' '.join('%d:%d' % answer for answer in receiver.resets.answers) or 'none'


def heard(receiver, value, limit):
    """The value of a RE-CONFIG at a receiver: the responses that wait then."""
    parameters = wire.read_items(value)
    if parameters is None:
        return 'no list'
    for kind, whole in parameters:
        receiver.resets.on_parameter(kind, whole[4:], limit)
    return shown_answers(receiver)


def read(written):
    return wire.Chunk(written[:struct.unpack('>H', written[2:4])[0]])


class Case:
    """A sender and a receiver, once they were made, and the packets that the sender built."""

    def __init__(self, interleave):
        self.interleave, self.sender, self.receiver, self.packets = interleave, None, None, []

    def answer(self, name, words):
        """What a call answers, None where the line is none."""
        method = getattr(self, 'on_' + name.replace('-', '_'), None)
        if method is None:
            return None
        try:
            return method(*words)
        except TypeError:
            return None
        except NoCall as fault:
            return fault.answer

    def of(self, end):
        if end is None:
            raise NoCall('not a call')
        return end

    def kept(self, chunks):
        """A packet that was built: its number, size, checksum and first chunks."""
        packet = wire.packet(1, 2, 3, chunks)
        self.packets.append(chunks)
        more = ' ..%d' % len(chunks) if len(chunks) > 4 else ''
        return 'packet %d %d %s: %s%s' % (len(self.packets), len(packet), packet[8:12].hex(),
                                          ' '.join(shown(one) for one in chunks[:4]), more)

    # ---- Checksums ----

    def on_sum(self, data):
        if not data:
            raise NoCall
        return '%08x' % checksums(bytes_of(data))[-1]

    def on_sums(self, count):
        found = ['%08x' % one for one in checksums(mixed(number(count, 65535)))]
        return '\n'.join('%d: %s' % (first, ' '.join(found[first:first + SUMS_OF_LINE])) for first in range(0, len(found), SUMS_OF_LINE))

    # ---- A sender ----

    def on_sender(self, tsn, streams, fragment, rwnd, partial):
        values = [number(word, limit) for word, limit in ((tsn, 2**32 - 1), (streams, 65535), (fragment, 65535), (rwnd, 2**32 - 1))]
        if partial not in ('pr', 'all'):
            raise NoCall
        if values[1] == 0 or not 0 < values[2] <= GREATEST_FRAGMENT:
            raise NoCall('not a call')
        self.sender, self.packets = Sender(self.interleave, *values, partial == 'pr'), []
        return 'ok'

    def on_queue(self, stream, kind, payload_id, until, data):
        stream, payload_id = number(stream, 65535), number(payload_id, 2**32 - 1)
        until = None if until == '-' else number(until, 2**64 - 1)
        if kind not in 'ou' or not data:
            raise NoCall
        answer = self.of(self.sender).send(stream, kind == 'o', payload_id, bytes_of(data), until)
        return 'ticket %d' % answer if answer > 0 else QUEUED[answer]

    def on_queue_each(self, streams, *words):
        answer = None
        for stream in range(number(streams, 65535)):
            answer = self.on_queue(str(stream), *words)
        return answer

    def on_fill(self, limit):
        writer = Writer(number(limit, 65535))
        tickets = self.of(self.sender).fill(writer)
        named = ', tickets ' + ' '.join(str(ticket) for ticket in tickets[:8]) if tickets else ''
        more = ' ..%d' % len(tickets) if len(tickets) > 8 else ''
        return (self.kept(writer.chunks) if writer.chunks else 'nothing') + named + more

    def on_recycle(self, limit):
        return self.on_fill(limit)

    def on_forward(self, room, limit=str(GREATEST_PACKET)):
        room, limit = number(room, 65535), number(limit, 65535)
        if limit > GREATEST_PACKET:
            raise NoCall('not a call')
        writer, made = Writer(room), self.of(self.sender).forward(limit - wire.HEADER)
        return self.kept(writer.chunks) if made is not None and writer.put(made) else 'nothing'

    def on_sack(self, tsn, rwnd, *blocks):
        found = type('Sack', (), {})()
        found.cumulative, found.rwnd = number(tsn, 2**32 - 1), number(rwnd, 2**32 - 1)
        sender = self.of(self.sender)
        found.blocks = pairs_of(blocks, 65535)
        return SACKED[sender.on_sack(found)]

    def on_taken_back(self, tsn, *blocks):
        found = type('Sack', (), {})()
        found.cumulative, sender = number(tsn, 2**32 - 1), self.of(self.sender)
        found.blocks = pairs_of(blocks, 65535)
        back = sorted(sender.taken_back(found))
        return 'indexes %s up to %d' % (' '.join(map(str, back)), back[-1]) if back else 'nothing'

    def on_has_more(self):
        return str(self.of(self.sender).has_more()).lower()

    def on_shutdown(self, tsn):
        tsn = number(tsn, 2**32 - 1)
        return SACKED[self.of(self.sender).on_shutdown(tsn)]

    def on_abandon(self, ticket):
        ticket = number(ticket, 2**64 - 1)
        return FATES[self.of(self.sender).abandon(ticket)]

    def on_expire(self, now):
        now = number(now, 2**64 - 1)
        self.of(self.sender).expire(now)
        return 'ok'

    def on_timeout(self):
        self.of(self.sender).on_timeout()
        return 'ok'

    def on_fate(self, ticket):
        ticket, sender = number(ticket, 2**64 - 1), self.of(self.sender)
        message = sender.messages[ticket - 1] if 1 <= ticket <= len(sender.messages) else None
        if message is None:
            return 'neither'
        return {(True, False): 'acknowledged', (False, True): 'abandoned', (False, False): 'neither',
                (True, True): 'both'}[sender.acknowledged(message), message.abandoned]

    def on_sending(self):
        sender = self.of(self.sender)
        return 'cum %d point %d outstanding %d%s%s' % (
            sender.cum, sender.point(), sender.outstanding(), ' drained' if sender.drained() else '',
            ' unsettled' if sender.unsettled() else '')

    def on_trim(self):
        self.of(self.sender)
        return 'ok'

    # ---- A receiver ----

    def on_receiver(self, tsn, streams, buffer):
        self.receiver = Receiver(self.interleave, number(tsn, 2**32 - 1), number(streams, 65535), number(buffer, 2**32 - 1))
        return 'ok'

    def on_data(self, tsn, stream, flags, count, word, data):
        values = [number(one, limit) for one, limit in ((tsn, 2**32 - 1), (stream, 65535), (count, 2**32 - 1), (word, 2**32 - 1))]
        if not re.fullmatch('I?U?B?E?|-', flags) or not data:
            raise NoCall
        receiver = self.of(self.receiver)
        return TAKEN[receiver.on_data(self.piece(*values, sum(FLAGS[f] for f in flags if f != '-'), bytes_of(data)))]

    def piece(self, tsn, stream, count, word, flags, data):
        """A chunk, as long as its data is: a chunk that comes in a packet has at most 65,535 bytes."""
        piece = wire.Piece(read(wire.data_chunk(
            self.interleave, flags, tsn, stream, count % (2**32 if self.interleave else 2**16), word, b'')))
        piece.data = data
        return piece

    def on_rise(self, times, tsn, stream, count, step='1'):
        times, tsn, count, step = (number(word, 2**32 - 1) for word in (times, tsn, count, step))
        stream, receiver = number(stream, 65535), self.of(self.receiver)
        answers = [receiver.on_data(self.piece((tsn + k * step) % 2**32, stream, count + k, 0, 3, b'a')) for k in range(times)]
        return 'taken %d' % answers.count(1)

    def on_leap(self, times, tsn):
        times, tsn, receiver = number(times, 2**32 - 1), number(tsn, 2**32 - 1), self.of(self.receiver)
        answers = []
        for k in range(times):
            found = type('Forward', (), {})()
            found.cumulative, found.skips = (tsn + k * wire.WIDTHS.window) % 2**32, []
            answers.append(receiver.on_forward(found))
        return 'moved %d' % answers.count(MOVED)

    def on_skip(self, tsn, *skips):
        found, receiver = type('Forward', (), {})(), None
        found.cumulative = number(tsn, 2**32 - 1)
        receiver = self.of(self.receiver)
        unordered = [self.interleave and skip.endswith('-u') for skip in skips]
        bare = [skip[:-2] if is_unordered else skip for skip, is_unordered in zip(skips, unordered)]
        pairs = pairs_of(bare, 2**32 - 1 if self.interleave else 65535)
        if any(stream > 65535 for stream, _ in pairs):
            raise NoCall('not a call')
        found.skips = [(stream, is_unordered, count) for (stream, count), is_unordered in zip(pairs, unordered)]
        return FORWARDED[receiver.on_forward(found)]

    def on_carry(self, packet):
        packet, receiver = number(packet, 2**64 - 1), self.of(self.receiver)
        if not 1 <= packet <= len(self.packets):
            return 'nothing'
        runs = []
        for written in self.packets[packet - 1]:
            found = read(written)
            answer = (TAKEN[receiver.on_data(wire.Piece(found))] if found.kind in PIECES
                      else FORWARDED[receiver.on_forward(wire.Forward(found))])
            if runs and runs[-1][0] == answer:
                runs[-1][1] += 1
            else:
                runs.append([answer, 1])
        return ', '.join(answer if times == 1 else '%s x%d' % (answer, times) for answer, times in runs)

    def on_take(self, stream):
        stream = number(stream, 65535)
        message = self.of(self.receiver).take(stream)
        if message is None:
            return 'nothing'
        return 'stream %d %s number %s payload %d parts %d size %d: %s%s %08x' % (
            stream, 'o' if message.ordered else 'u', '-' if message.number is None else message.number,
            message.payload_id, message.parts, len(message.data), message.data[:16].hex(),
            '..' if len(message.data) > 16 else '', wire.crc32c(message.data))

    def on_next_readable(self, start):
        start, streams = number(start, 65535), sorted({message.stream for message in self.of(self.receiver).waiting})
        found = [stream for stream in streams if stream >= start] + streams
        return 'stream %d' % found[0] if found else 'nothing'

    def on_tell(self):
        receiver = self.of(self.receiver)
        written = receiver.sack()
        receiver.sack_sent()
        return written.hex()

    def on_acknowledge(self):
        sender = self.of(self.sender)
        written = self.on_tell()
        return '%s %s' % (written, SACKED[sender.on_sack(wire.Sack(read(bytes.fromhex(written))))])

    def on_receiving(self):
        receiver = self.of(self.receiver)
        runs = sum(1 for index in receiver.seen if index - 1 not in receiver.seen)
        return 'cumulative %d held %d runs %d' % (receiver.tsn(receiver.c), receiver.held, runs)

    def on_trim_receiver(self):
        self.of(self.receiver)
        return 'ok'

    # ---- Resets of streams: at a sender ----

    def on_reset(self, stream):
        stream = number(stream, 65535)
        self.of(self.sender).resets.reset(stream)
        return 'ok'

    def on_reset_each(self, streams):
        streams, sender = number(streams, 65535), self.of(self.sender)
        for stream in range(streams):
            sender.resets.reset(stream)
        return 'ok'

    def on_resetting(self, stream=None):
        if stream is None:
            resets = self.of(self.sender).resets
            return 'streams %d%s' % (len(resets.resetting()), ' may ask' if resets.may_ask() else '')
        stream = number(stream, 65535)
        return str(self.of(self.sender).resets.is_resetting(stream)).lower()

    def on_ask(self):
        sender = self.of(self.sender)
        sender.resets.ask()
        return shown_request(sender)

    def on_request(self):
        return shown_request(self.of(self.sender))

    def on_response(self, sequence_number, code):
        sequence_number, code = number(sequence_number, 2**32 - 1), number(code, 2**32 - 1)
        sender = self.of(self.sender)
        sender.resets.on_response(sequence_number, code)
        return shown_request(sender)

    def on_retry(self):
        sender = self.of(self.sender)
        sender.resets.retry()
        return shown_request(sender)

    # ---- Resets of streams: at a receiver ----

    def on_reconfig(self, value, limit=str(GREATEST_PACKET)):
        limit = number(limit, 65535)
        if not value:
            raise NoCall
        receiver = self.of(self.receiver)
        return heard(receiver, bytes_of(value), limit)

    def on_responses(self):
        return shown_answers(self.of(self.receiver))

    def on_responses_sent(self):
        self.of(self.receiver).resets.answers_sent()
        return 'ok'

    def on_last_finished(self):
        return str(self.of(self.receiver).resets.last_finished())

    def on_take_reset(self):
        found = self.of(self.receiver).resets.take_reset()
        return 'nothing' if found is None else 'reset %d %d' % found

    def on_has_reset(self):
        return str(bool(self.of(self.receiver).resets.told)).lower()

    # ---- Resets of streams: from one to the other ----

    def on_carry_request(self):
        sender, receiver = self.of(self.sender), self.of(self.receiver)
        request = sender.resets.request()
        if request is None:
            return 'nothing'
        sequence_number, last, streams = request
        value = wire.item_list([wire.reset_request(sequence_number, 0, last, streams)])
        return '%s %s' % (shown(value), heard(receiver, value, GREATEST_PACKET))

    def on_carry_responses(self):
        sender, receiver = self.of(self.sender), self.of(self.receiver)
        answers = receiver.resets.answers
        if not answers:
            return 'nothing'
        receiver.resets.answers_sent()
        for answer in answers:
            sender.resets.on_response(*answer)
        return '%s %s' % (shown(wire.item_list([wire.reset_response(*answer) for answer in answers])), shown_request(sender))


def transcript(name, lines):
    """The lines of a case, each with its answer behind it."""
    case, out = Case(name.startswith('i-data ')), []
    for line in lines:
        out.append(line)
        times = re.match(r'\*([0-9]+) ', line)
        call, *words = (line[times.end():] if times else line).split(' ')
        for _ in range(int(times[1]) if times else 1):
            answer = case.answer(call, words)
        if answer is not None:
            out.append(answer)
    return out


def is_told(name, lines):
    """Whether the model says what a case answers: it has a format, or each of its calls is of checksums."""
    return name.startswith(('data ', 'i-data ')) or all(re.match('sums? |== |$', line) for line in lines)


def split(text):
    """The remarks above the first case, and (name, lines) of each."""
    first, *cases = text.removesuffix('\n').split('\n= ')
    return first, [(case.split('\n')[0], case.split('\n')[1:]) for case in cases]


def main():
    names = sys.argv[1:] + [os.path.join(CRATE, 'stdin'), os.path.join(CRATE, 'stdout')][len(sys.argv) - 1:]
    texts = []
    for name in names:
        with open(name, encoding='utf-8', newline='') as file:
            texts.append(file.read())
    stored = dict(split(texts[1])[1])
    first, cases = split(texts[0])
    print(first)
    for name, lines in cases:
        print('\n'.join(['= ' + name] + (transcript(name, lines) if is_told(name, lines) else stored.get(name, lines))))


if __name__ == '__main__':
    main()
