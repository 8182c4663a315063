"""A Linux kernel as a process, by user-mode Linux: its only program is the socket of socket.c, its network card one end of a pair of sockets."""

import gzip
import os
import re
import select
import socket
import stat
import struct
import subprocess
import time

HOST_CARD, KERNEL_CARD = bytes.fromhex('020000000001'), bytes.fromhex('020000000002')
HOST, KERNEL = '10.0.0.1', '10.0.0.2'
IP, ARP, SCTP, UDP = 0x0800, 0x0806, 132, 17
BOOTS, LINES_AT_ONCE, PATIENCE = 900, 8, 20         # seconds; the console loses what it has no space for; seconds


def modules(folder):
    """sctp and hmac, and what they depend on, the last first used."""
    files = {name[:-3].replace('-', '_'): os.path.join(at, name) for at, _, names in os.walk(folder) for name in names if name.endswith('.ko')}
    order = []

    def add(name):
        if name in files and files[name] not in order:
            with open(files[name], 'rb') as module:
                depends = re.search(rb'\0depends=([^\0]*)\0', module.read())
            for other in depends.group(1).decode().split(',') if depends else []:
                add(other.replace('-', '_'))
            order.append(files[name])
    for name in ('hmac', 'sctp'):
        add(name)
    if not order or not order[-1].endswith('sctp.ko'):
        raise RuntimeError('there is no sctp.ko in %s' % folder)
    return order


def initramfs(program, folder, to):
    """The kernel's file system, a compressed cpio archive: the program, as /init, and the modules of this folder."""
    archive, count = bytearray(), 0

    def entry(name, mode, data):
        nonlocal count
        count += 1
        fields = (count, mode, 0, 0, 1, 0, len(data), 0, 0, 0, 0, len(name) + 1, 0)
        head = b'070701' + b''.join(b'%08X' % field for field in fields) + name.encode() + b'\0'
        archive.extend(head + bytes(-len(head) % 4) + data + bytes(-len(data) % 4))

    for name in ('proc', 'lib'):
        entry(name, stat.S_IFDIR | 0o755, b'')
    files = modules(folder)
    entry('lib/order', stat.S_IFREG | 0o644, ' '.join(os.path.basename(name) for name in files).encode())
    for name, at, mode in [('init', program, 0o755)] + [('lib/' + os.path.basename(name), name, 0o644) for name in files]:
        with open(at, 'rb') as file:
            entry(name, stat.S_IFREG | mode, file.read())
    entry('TRAILER!!!', 0, b'')
    with gzip.open(to, 'wb', 6) as out:
        out.write(bytes(archive))


def checksum(data):
    total = sum(struct.unpack('>%dH' % (len(data) // 2), data))
    while total >> 16:
        total = (total & 0xFFFF) + (total >> 16)
    return ~total & 0xFFFF


class Kernel:
    """The kernel: lines to its program and from it, packets to its card and from it."""

    def __init__(self, program, files, folder):
        """The program is linux.uml, the files an initramfs; its own files go to a folder."""
        self.card, theirs = socket.socketpair(socket.AF_UNIX, socket.SOCK_DGRAM)
        for end in (self.card, theirs):
            end.setsockopt(socket.SOL_SOCKET, socket.SO_SNDBUF, 4 << 20)
        card = 'vec0:transport=fd,fd=%d,mac=%s,gro=0' % (theirs.fileno(), KERNEL_CARD.hex(':'))
        words = ['mem=128M', 'initrd=' + files, 'rdinit=/init', 'con=null', 'con0=fd:0,fd:1', 'ssl=null', 'quiet', card, 'umid=trials%d' % os.getpid()]
        self.began, self.log = time.monotonic(), None
        self.process = subprocess.Popen([program] + words, stdin=subprocess.PIPE, stdout=subprocess.PIPE, stderr=subprocess.DEVNULL,
                                        pass_fds=[theirs.fileno()], bufsize=0, env={**os.environ, 'HOME': folder, 'TMPDIR': folder})
        theirs.close()
        self.card.setblocking(False)
        os.set_blocking(self.process.stdout.fileno(), False)
        self.rest, self.lines, self.told, self.done, self.packets_sent, self.udp = b'', [], 0, 0, 0, None
        self.faults, self.patience = None, 1            # of the association that it has; how many times as long is waited for what is wanted
        self.wait_for(lambda: 'READY' in self.lines, BOOTS)
        self.booted = time.monotonic() - self.began

    def is_up(self):
        return 'READY' in self.lines and not any(line.startswith('err') for line in self.lines)

    def wait_for(self, wanted, seconds):
        ends = time.monotonic() + seconds
        while not wanted() and time.monotonic() < ends and self.process.poll() is None:
            select.select([self.process.stdout], [], [], 0.05)
            self.read()

    def note(self, text):
        if self.log:
            print('%.3f %s' % (time.monotonic() - self.began, text), file=self.log, flush=True)

    def read(self):
        """Reads what the program wrote."""
        while new := self.some():
            self.rest += new
        *lines, self.rest = self.rest.replace(b'\r', b'').split(b'\n')
        for line in (line.decode(errors='replace') for line in lines):
            self.done += line == '.'
            if line not in ('', '.'):
                self.lines.append(line)
                self.note('Linux: ' + line)

    def some(self):
        try:
            return os.read(self.process.stdout.fileno(), 1 << 16)
        except BlockingIOError:
            return b''

    def tell(self, *lines):
        """Gives lines to the program, which acts on them soon."""
        for line in lines:
            self.wait_for(lambda: self.told - self.done < LINES_AT_ONCE, PATIENCE)
            self.told += 1
            self.note('to Linux: ' + line)
            os.write(self.process.stdin.fileno(), line.encode() + b'\n')

    def answer(self, line, seconds=PATIENCE):
        """What the program writes to a line, and what happens to be reported before it is done."""
        before = len(self.lines)
        self.tell(line)
        self.wait_for(lambda: self.done == self.told, seconds)
        return self.lines[before:]

    def reports(self, text):
        return any(text in line for line in self.lines)

    def events(self):
        return [line for line in self.lines if line.startswith(('event', 'err'))]

    def messages(self):
        return [line.split(' ')[1:] for line in self.lines if line.startswith('message ')]

    def send(self, packet):
        """Gives its card a packet, as IP's protocol 132 or in UDP (RFC 6951: from the first port of `udp` to the second); whether there was space."""
        kind, self.packets_sent = SCTP, self.packets_sent + 1
        if self.udp:
            packet, kind = struct.pack('>HHHH', *self.udp, 8 + len(packet), 0) + packet, UDP
        ends = socket.inet_aton(HOST) + socket.inet_aton(KERNEL)
        head = struct.pack('>BBHHHBBH', 0x45, 0, 20 + len(packet), self.packets_sent & 0xFFFF, 0x4000, 64, kind, 0) + ends
        head = head[:10] + struct.pack('>H', checksum(head)) + head[12:]
        try:
            self.card.send(KERNEL_CARD + HOST_CARD + struct.pack('>H', IP) + head + packet)
        except BlockingIOError:
            return False
        return True

    def received(self):
        """The SCTP packets that its card sent; ARP is answered here."""
        packets = []
        while True:
            try:
                frame = self.card.recv(1 << 16)
            except BlockingIOError:
                return packets
            kind, = struct.unpack_from('>H', frame, 12)
            if kind == ARP and frame[20:22] == b'\0\1' and frame[38:42] == socket.inet_aton(HOST):
                self.card.send(frame[6:12] + HOST_CARD + frame[12:20] + b'\0\2' + HOST_CARD + frame[38:42] + frame[22:32])
            elif kind == IP and frame[30:34] == socket.inet_aton(HOST):
                packets += self.of_ip(frame[14:])

    def of_ip(self, packet):
        """What is in an IP packet, if it is of the association's kind."""
        length, end = 4 * (packet[0] & 15), struct.unpack_from('>H', packet, 2)[0]
        is_whole = not struct.unpack_from('>H', packet, 6)[0] & 0x3FFF
        if is_whole and packet[9] == SCTP and not self.udp:
            return [packet[length:end]]
        if is_whole and packet[9] == UDP and self.udp and struct.unpack_from('>H', packet, length)[0] == self.udp[1]:
            return [packet[length + 8:end]]
        self.note('from Linux: another packet, %s' % packet[:48].hex())
        return []

    def close(self):
        """Powers it off. What is left of its processes after some seconds, which are its own alone, is killed."""
        try:
            self.tell('off')
            self.process.wait(5)
        except (subprocess.TimeoutExpired, OSError):
            for one in family(self.process.pid):
                try:
                    os.kill(one, 9)
                except ProcessLookupError:
                    pass
            self.process.wait()


def family(process):
    """A process, after those below it."""
    try:
        with open('/proc/%d/task/%d/children' % (process, process)) as file:
            below = file.read().split()
    except FileNotFoundError:
        below = []
    return [it for child in below for it in family(int(child))] + [process]
