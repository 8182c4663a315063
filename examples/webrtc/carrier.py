"""What carries SCTP packets to a browser and back: ICE and DTLS by aiortc (RFC 8261). `Carrier.answer` answers the browser's offer.

aiortc 1.4.0, Debian's, passes what DTLS received to `_handle_data` and takes what is to be sent by `_send_data`: it has no public names for them."""

import asyncio
import collections
import random
import time

import aioice.ice
from aiortc import RTCCertificate, RTCDtlsTransport, RTCIceGatherer, RTCIceTransport
from aiortc.sdp import SessionDescription, candidate_to_sdp

from picture import chunks

PORT = 5000  # of both endpoints, as browsers have it (RFC 8841)
KEPT = 4000  # packets, for the picture

ANSWER = """v=0
o=- {session} 2 IN IP4 127.0.0.1
s=-
t=0 0
a=group:BUNDLE {mid}
m=application 9 UDP/DTLS/SCTP webrtc-datachannel
c=IN IP4 0.0.0.0
a=mid:{mid}
a=ice-ufrag:{ufrag}
a=ice-pwd:{password}
{candidates}
a=end-of-candidates
a=fingerprint:{algorithm} {fingerprint}
a=setup:{setup}
a=sctp-port:{port}
a=max-message-size:{longest}
"""


def now():
    """Milliseconds on a clock that doesn't go back."""
    return time.monotonic_ns() // 1_000_000


def on_loopback():
    """ICE on the loopback interface alone, which aioice leaves out else."""
    aioice.ice.get_host_addresses = lambda use_ipv4, use_ipv6: ["127.0.0.1"]


class Network:
    """Between endpoint and DTLS: what part of the packets is lost each way. `carries` is asked for each packet."""

    def __init__(self, lost=0.0, seed=1):
        self.lost, self._random = lost, random.Random(seed)

    def carries(self):
        return self._random.random() >= self.lost


class Carrier:
    """ICE and DTLS with one browser. What is above has `run`, which is awaited once DTLS is connected and ends the connection by returning;
    `on_packet`, which is awaited for each packet received; and `longest`, the longest message that it receives."""

    longest = 65536

    def __init__(self, network=None, server=False, loopback=False):
        """`server`: this side is the DTLS server, else the client. On the loopback interface a browser's candidates are taken to be at 127.0.0.1,
        since Chromium's socket answers from there whatever address it gives."""
        self.network, self.server, self.loopback = network or Network(), server, loopback
        self._ice = RTCIceTransport(RTCIceGatherer())
        self._dtls = RTCDtlsTransport(self._ice, [RTCCertificate.generateCertificate()])
        self._dtls._set_role("server" if server else "client")
        self.packets = collections.deque(maxlen=KEPT)  # (number, time, sent, carried, length, chunks), for the picture
        self.counted, self._task, self.over = 0, None, asyncio.Event()

    async def answer(self, offer):
        """The answer to a browser's offer, both in SDP (RFC 8839, RFC 8841, RFC 8842). ICE and DTLS begin."""
        session = SessionDescription.parse(offer)
        media = next(it for it in session.media if it.kind == "application")
        await self._ice.iceGatherer.gather()
        for candidate in media.ice_candidates:
            if self.loopback and ":" in candidate.ip:
                continue
            candidate.ip = "127.0.0.1" if self.loopback else candidate.ip
            await self._ice.addRemoteCandidate(candidate)
        await self._ice.addRemoteCandidate(None)
        self._task = asyncio.ensure_future(self._carry(media))
        own, fingerprint = self._ice.iceGatherer, self._dtls.getLocalParameters().fingerprints[0]
        text = ANSWER.format(
            session=random.getrandbits(62), mid=media.rtp.muxId, port=PORT, longest=self.longest,
            ufrag=own.getLocalParameters().usernameFragment, password=own.getLocalParameters().password,
            candidates="\n".join("a=candidate:" + candidate_to_sdp(it) for it in own.getLocalCandidates()),
            algorithm=fingerprint.algorithm, fingerprint=fingerprint.value, setup="passive" if self.server else "active")
        return text.replace("\n", "\r\n")

    async def _carry(self, media):
        await self._ice.start(media.ice)
        self._dtls._register_data_receiver(self)
        await self._dtls.start(media.dtls)
        try:
            if self.connected():
                await self.run()
        finally:
            self.over.set()
            await self._dtls.stop()
            await self._ice.stop()

    def connected(self):
        return self._dtls.state == "connected"

    async def transmit(self, packet):
        """Sends a packet, if the network carries it."""
        if self._noted(True, packet) and self.connected() and not self.over.is_set():
            await self._dtls._send_data(packet)

    async def _handle_data(self, packet):
        if self._noted(False, packet):
            await self.on_packet(packet)

    def _noted(self, sent, packet):
        carried = self.network.carries()
        self.counted += 1
        self.packets.append((self.counted, now(), sent, carried, len(packet), chunks(packet)))
        return carried
