#!/usr/bin/env python3
"""Writes lines of packets as a capture of link type DLT_USER0, one packet a frame, for Wireshark with pcie_tlp.lua.

    pciex tlp < packets.txt > packets.out
    python3 packets_to_pcap.py packets.txt packets.out > x.pcap

A line is a packet in hexadecimal digits; spaces are ignored. Empty lines and lines that begin with # are skipped. Of
several files, line after line is taken from each in turn, and lines that are no packets, such as - and `fault 1 Short`,
take their turn without a frame. So a request stands before its completion. Each turn is a microsecond.
"""
import itertools
import struct
import sys


def lines_of(name):
    with open(name) as file:
        return [it for it in file.read().splitlines() if it and not it.startswith("#")]


def main():
    out = sys.stdout.buffer
    out.write(struct.pack("<IHHiIII", 0xA1B2C3D4, 2, 4, 0, 0, 65535, 147))
    turns = itertools.chain(*itertools.zip_longest(*map(lines_of, sys.argv[1:]), fillvalue="-"))
    for turn, line in enumerate(turns):
        try:
            data = bytes.fromhex(line)
        except ValueError:
            continue
        out.write(struct.pack("<IIII", turn // 1000000, turn % 1000000, len(data), len(data)) + data)


main()
