"""A carrier whose packets go to a program of yours and come from it, each as a UDP datagram on the loopback interface: the program needs no DTLS of its
own. Once DTLS is over, the program receives a datagram of one byte, which is no packet: nothing else may tell it so. docs/CHANNELS.md has a program in C."""

import asyncio

from carrier import Carrier


class Bridge(Carrier):
    longest = 1 << 18  # a quarter of the receive buffer of SCTP_CHANNELS_CONFIG

    def __init__(self, program, **how):
        """`program` is the UDP port of the program, which answers to the address that it receives from."""
        super().__init__(**how)
        self.program, self._udp, self._received = program, None, asyncio.Queue()

    async def run(self):
        loop = asyncio.get_running_loop()
        self._udp, _ = await loop.create_datagram_endpoint(lambda: Datagrams(self._received), remote_addr=("127.0.0.1", self.program))
        try:
            while self.connected():
                try:
                    await self.transmit(await asyncio.wait_for(self._received.get(), 1))
                except asyncio.TimeoutError:
                    pass
        finally:
            self._udp.sendto(b"\0")
            self._udp.close()

    async def on_packet(self, packet):
        if self._udp is not None:
            self._udp.sendto(packet)


class Datagrams(asyncio.DatagramProtocol):
    def __init__(self, received):
        self.received = received

    def datagram_received(self, data, address):
        self.received.put_nowait(data)
