"""A legacy transmit descriptor, from the 82574 datasheet's table alone: 16 bytes, of which the first eight are the
address and the next two the length, the low byte first. Then come the checksum offset, the command, the status, the
checksum start, and two bytes for a VLAN tag. It shares nothing with the server."""

import struct

SIZE = 16
COMMAND, STATUS = 11, 12  # the bytes that have them
END_OF_PACKET, REPORT_STATUS, EXTENSION = 1 << 0, 1 << 3, 1 << 5  # bits of the command
DONE = 1 << 0  # of the status


def descriptor(address, length, is_last, is_done=False):
    """The server's profile: a frame's last descriptor ends the packet and has its status reported."""
    command = END_OF_PACKET | REPORT_STATUS if is_last else 0
    return struct.pack("<QHBBBBH", address, length, 0, command, DONE if is_done else 0, 0, 0)


def descriptors(segments):
    """Those of a frame, which has a segment or more."""
    last = len(segments) - 1
    return [descriptor(*segment, number == last) for number, segment in enumerate(segments)]


# The fields of a descriptor, and its bytes as the table above gives them.
ROWS = [
    ((1_049_088, 6, False, False), "0002100000000000" "0600" "00" "00" "00" "00" "0000"),
    ((3_145_728, 600, False, False), "0000300000000000" "5802" "00" "00" "00" "00" "0000"),
    ((1_049_094, 2, True, False), "0602100000000000" "0200" "00" "09" "00" "00" "0000"),
    ((1_049_094, 2, True, True), "0602100000000000" "0200" "00" "09" "01" "00" "0000"),
]
