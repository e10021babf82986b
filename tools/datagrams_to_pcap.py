#!/usr/bin/env python3
"""Writes printed datagrams to a pcap file, so that an independent decoder can read them.

Standard input has lines `datagram IP:PORT HEX`, as `satip replay` prints them; other lines are
skipped. With no such line the report of an example is written: one datagram sent, at clock 1040.

    satip replay CONFIG < SCRIPT | tools/datagrams_to_pcap.py run.pcap
    tshark -r run.pcap -d udp.port==1401,rtcp -d udp.port==1400,rtp -V | grep -i malformed

The second command prints nothing where no datagram is malformed; the ports are those of the
clients' `client_port`. Add `-T fields -e rtcp.app.name -e rtcp.sdes.text` for single fields.
Needs the Debian packages python3, and tshark for the second command.
"""
import ipaddress
import struct
import sys

EXAMPLE = (
    "datagram 192.168.1.20:1401 "
    "80c800061122334483aa7e810a3d70a300016da00000000100000468"
    "81ca000511223344010c3139322e3136382e312e31300000"
    "80cc001811223344534553310000005276"
    "65723d312e303b7372633d313b74756e65723d312c3234302c312c31352c31313336312e37352c682c"
    "64766273322c3870736b2c6f6e2c302e33352c32323030302c32333b706964733d302c31362c31370000"
)
SOURCE = ipaddress.IPv4Address("192.168.1.10")
SOURCE_PORT = 1400
RAW_IP = 101


def checksum(header):
    total = sum(struct.unpack("!%dH" % (len(header) // 2), header))
    while total > 0xFFFF:
        total = (total & 0xFFFF) + (total >> 16)
    return total ^ 0xFFFF


def ip_packet(address, port, payload):
    udp = struct.pack("!HHHH", SOURCE_PORT, port, 8 + len(payload), 0) + payload
    fields = [0x45, 0, 20 + len(udp), 0, 0, 64, 17, 0, SOURCE.packed, address.packed]
    fields[7] = checksum(struct.pack("!BBHHHBBH4s4s", *fields))
    return struct.pack("!BBHHHBBH4s4s", *fields) + udp


def datagrams(lines):
    for line in lines:
        words = line.split()
        if len(words) == 3 and words[0] == "datagram":
            address, port = words[1].split(":")
            yield ip_packet(ipaddress.IPv4Address(address), int(port), bytes.fromhex(words[2]))


def main():
    if len(sys.argv) != 2:
        sys.exit(__doc__)
    packets = [] if sys.stdin.isatty() else list(datagrams(sys.stdin))
    packets = packets or list(datagrams([EXAMPLE]))
    with open(sys.argv[1], "wb") as pcap:
        pcap.write(struct.pack("!IHHiIII", 0xA1B2C3D4, 2, 4, 0, 0, 65535, RAW_IP))
        for number, packet in enumerate(packets):
            pcap.write(struct.pack("!IIII", number, 0, len(packet), len(packet)) + packet)
    print("%d datagrams" % len(packets))


if __name__ == "__main__":
    main()
