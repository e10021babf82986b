"""What comes as RTP: sockets, datagrams, sequence numbers, and packets that carry their numbers.

Needs python3 alone.
"""

import random
import select
import socket
import time

RTP_HEADER, PACKET, PACKETS_A_DATAGRAM = 12, 188, 7


def receiver(address, room=4 << 20):
    """Opens a UDP socket for RTP at an even port; it doesn't wait."""
    while True:
        sock = socket.socket(socket.AF_INET, socket.SOCK_DGRAM)
        sock.bind((address, 0))
        if sock.getsockname()[1] % 2 == 0:
            sock.setsockopt(socket.SOL_SOCKET, socket.SO_RCVBUF, room)
            sock.setblocking(False)
            return sock
        sock.close()


def receiver_pair(address):
    """Opens a socket at an even port for RTP, and one at the next port for RTCP."""
    while True:
        rtp, rtcp = receiver(address), socket.socket(socket.AF_INET, socket.SOCK_DGRAM)
        try:
            rtcp.bind((address, rtp.getsockname()[1] + 1))
        except OSError:
            rtp.close()
            rtcp.close()
            continue
        rtcp.setblocking(False)
        return rtp, rtcp


def port_of(sock):
    return sock.getsockname()[1]


def datagrams(sock, seconds):
    """Yields the datagrams that come within the seconds."""
    end = time.monotonic() + seconds
    while time.monotonic() < end:
        try:
            yield sock.recv(2048)
        except BlockingIOError:
            time.sleep(0.005)


def arrived(sock, seconds):
    """Counts the datagrams that come within the seconds."""
    return sum(1 for _ in datagrams(sock, seconds))


def number_of(datagram):
    """The sequence number of an RTP datagram."""
    return datagram[2] << 8 | datagram[3]


def skipped(last, number):
    """How many numbers were skipped, or None if the datagram comes late or twice."""
    step = 1 if last is None else (number - last) & 0xFFFF
    return None if step == 0 or step >= 0x8000 else step - 1


def payload(frames, channel):
    """The transport packets of the RTP frames of a channel, and their sequence numbers."""
    taken = [data for place, data in frames if place == channel]
    return b"".join(data[RTP_HEADER:] for data in taken), [number_of(data) for data in taken]


class Receivers:
    """Sockets for RTP, what came, and how many datagrams are late or missing by their numbers."""

    def __init__(self, address, count):
        self.socks = [receiver(address) for _ in range(count)]
        self.by_file = {sock.fileno(): sock for sock in self.socks}
        self.last = {}
        self.datagrams = self.payload = self.late = self.missing = 0
        self.poll = select.epoll()
        for file in self.by_file:
            self.poll.register(file, select.EPOLLIN)

    def ports(self):
        return [port_of(sock) for sock in self.socks]

    def read_for(self, seconds):
        end = time.monotonic() + seconds
        while time.monotonic() < end:
            for file, _ in self.poll.poll(0.1):
                self.drain(file)

    def drain(self, file):
        sock, buffer = self.by_file[file], bytearray(2048)
        while True:
            try:
                length = sock.recv_into(buffer)
            except BlockingIOError:
                return
            self.datagrams += 1
            self.payload += length - RTP_HEADER
            self.count_number(file, number_of(buffer))

    def count_number(self, file, number):
        gap = skipped(self.last.get(file), number)
        if gap is None:
            self.late += 1
            return
        self.missing += gap
        self.last[file] = number

    def packets(self):
        return self.payload // PACKET

    def close(self):
        self.poll.close()
        for sock in self.socks:
            sock.close()


def numbered(count):
    """Packets of PID 256 that carry their numbers, followed by random bytes."""
    noise = random.Random(1).randbytes(176 * count)
    packets = []
    for number in range(count):
        head = bytes((0x47, 1, 0, 0x10 | number % 16)) + number.to_bytes(8, "big")
        packets.append(head + noise[176 * number : 176 * (number + 1)])
    return b"".join(packets)


def clocked(count, megabits):
    """Packets of PID 256, each eighth with the program clock of a stream of this rate."""
    packets = []
    for number in range(count):
        head, body = bytes((0x47, 1, 0, 0x10 | number % 16)), number.to_bytes(8, "big")
        if number % 8 == 0:
            base, extension = divmod(int(number * 8 * PACKET * 27 / megabits), 300)
            clock = (base << 15 | 0x3F << 9 | extension).to_bytes(6, "big")
            head, body = head[:3] + bytes((0x30 | number % 16, 7, 0x10)), clock + body
        packets.append((head + body).ljust(PACKET, b"\xff"))
    return b"".join(packets)


def missing_runs(output, recording):
    """How many packets of a numbered recording are left out at each place; None if the output has
    others, or isn't in order."""
    runs, last = [], None
    for place in range(0, len(output), PACKET):
        packet = output[place : place + PACKET]
        number = int.from_bytes(packet[4:12], "big")
        if packet != recording[PACKET * number : PACKET * (number + 1)]:
            return None
        if last is not None and number <= last:
            return None
        if last is not None and number > last + 1:
            runs.append(number - last - 1)
        last = number
    return runs
