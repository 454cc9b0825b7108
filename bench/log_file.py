"""A volume with a stream: its log in file 0, and the messages in blocks. It is what `bench/openings` opens."""
import json
import os
import struct

MADE = 1_700_000_000_000_000_000
PAYLOAD = 100 * b"x"
SECOND = 1_000_000_000
# The length of a block.
MOST_BYTES = 8_388_608
POLYNOMIAL = 0x82F63B78


def after_byte(register):
    """What becomes of a register of eight bits as they fall out."""
    for _ in range(8):
        register = register >> 1 ^ (POLYNOMIAL if register & 1 else 0)
    return register


AFTER_BYTE = [after_byte(byte) for byte in range(256)]


def crc32c(data):
    """The checksum of the bytes."""
    register = 0xFFFFFFFF
    for byte in data:
        register = register >> 8 ^ AFTER_BYTE[(register ^ byte) & 255]
    return register ^ 0xFFFFFFFF



def number(n):
    return struct.pack(">Q", n)


def long(data):
    return struct.pack(">I", len(data)) + data


def checked(data):
    """The bytes behind their length and their checksum."""
    return struct.pack(">II", len(data), crc32c(data)) + data


def text(data):
    return struct.pack(">H", len(data)) + data


def name(data):
    return bytes([len(data)]) + data


def batch(*records):
    return b"\1" + checked(b"".join(records))


def stream(**config):
    """The record of the stream A."""
    usual = {
        **{"discard": "old", "duplicate_window": 120 * SECOND, "max_age": 0, "max_bytes": -1, "max_consumers": -1, "max_msg_size": -1, "max_msgs": -1},
        **{"max_msgs_per_subject": -1, "name": "A", "num_replicas": 1, "retention": "limits", "storage": "file", "subjects": ["A"]},
    }
    printed = json.dumps({**usual, **config}, separators=(",", ":"), sort_keys=True)
    return b"\1" + number(1) + number(MADE) + long(printed.encode())


def consumer():
    """The record of the consumer C, to which each message is still to be delivered."""
    config = {
        **{"ack_policy": "explicit", "ack_wait": 30 * SECOND, "deliver_policy": "all", "durable_name": "C", "max_ack_pending": 1000, "max_deliver": -1},
        **{"max_waiting": 512, "name": "C", "replay_policy": "instant"},
    }
    printed = json.dumps(config, separators=(",", ":"), sort_keys=True)
    return b"\7" + name(b"C") + number(MADE) + long(printed.encode()) + number(1) + struct.pack(">I", 0)


def now(at):
    return b"\x0d" + number(at)


def remove(low, high):
    return b"\6" + number(low) + number(high)


def deliver(seq, at):
    return b"\x09" + name(b"C") + number(seq) + number(1) + number(at + 30 * SECOND) + number(seq)


def acked(seq):
    return b"\x0a" + name(b"C") + number(seq) + number(seq)


class Volume:
    """The files of a volume as they are written: a log of generation 1, which begins with a vacant place, and blocks from file 2 on."""

    def __init__(self, folder):
        self.place = f"{folder}/place-00"
        os.makedirs(self.place)
        self.blocks, self.end = [], MOST_BYTES

    def put(self, seq, at, message_id=b""):
        """Writes a message into a block, and returns its record."""
        message = checked(number(seq) + number(at) + text(b"A") + long(b"") + PAYLOAD)
        if self.end + len(message) > MOST_BYTES:
            self.blocks.append(open(f"{self.place}/f{len(self.blocks) + 2:05}", "wb"))
            self.end = 0
        self.blocks[-1].write(message)
        spot = struct.pack(">HII", len(self.blocks) + 1, self.end, len(message))
        self.end += len(message)
        return b"\x0e" + number(seq) + number(at) + text(message_id) + spot

    def write(self, batches):
        """Writes the log, and returns how long it and the blocks are."""
        with open(f"{self.place}/f00000", "wb") as log:
            title = b"JSLOG\0\0\3" + number(1)
            log.write(title + struct.pack(">I", crc32c(title)) + batch(b"\x20" + number(0)))
            log.writelines(batches)
            log.write(b"\0")
            size = log.tell()
        for block in self.blocks:
            size += block.tell()
            block.close()
        return size
