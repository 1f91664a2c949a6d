#!/usr/bin/env python3
# ring.py [ORACLE] > crates/replay_ring/stdin: calls over a ring with what each answers and leaves. The oracle is not asked, since the crate has no ring. The answers are worked out here
# from 02 [11]: a deque of records for what was put and not yet flushed, and the bytes that the ring must hold.
# A case, before it its size in bytes as a little-endian u32. Eighteen words, then bytes:
#   call        0 opening, 1 putting, 2 flushing
#   size        bytes of the ring
#   head, count
#   line (two words), bits, fed, stopped, refusal     of a put
#   most, room                                        of a flush: the stated number, and bytes of the output
#   number, place, head, count                        the answer
#   told        bytes of the ring that are told; those behind them are 0
#   written     bytes of the output that are told; those behind them are 0xEE, as all were
# The ring's bytes before the call and after it, and the output's after it.
import collections
import random
import struct
import sys

SEED = 11
RECORD, MOST_SLOTS = 32, 2048
NO_ROOM, BAD_RING, FULL = 3, 15, 16
OPEN, PUT, FLUSH = 0, 1, 2
U32, U64 = 2**32, 2**64
OUTPUT = 1024

out = sys.stdout.buffer
draw = random.Random(SEED)


def write(call, ring, head, count, verdict=(0, 0, 0, 0, 0), most=0, room=0, told=(0, 0, 0), after=None, written=b"", size=None):
    line, bits, fed, stopped, refusal = verdict
    after = ring if after is None else after
    words = [call, len(ring) if size is None else size, head, count, line % U32, line // U32, bits, fed, stopped, refusal, most, room]
    words += [told[0], 0, told[1], told[2], len(ring), len(written)]
    case = struct.pack("<18I", *words) + ring + after + written
    out.write(struct.pack("<I", len(case)) + case)


def record(verdict):
    return struct.pack("<QIIII", *verdict) + bytes(8)


def wrong_size(size):
    return size % RECORD != 0 or not 1 <= size // RECORD <= MOST_SLOTS


def wrong(size, head, count):
    return wrong_size(size) or not head < size // RECORD or count > size // RECORD


def verdict():
    line = draw.choice([0, 1, U32 - 1, U32, U64 - 1, draw.randrange(U64)])
    return (line, *(draw.choice([0, 1, 81, 0x3E99999A, U32 - 1, draw.randrange(U32)]) for _ in range(4)))


class Ring:
    """A ring from its opening on; `queue` has its records, the oldest first."""

    def __init__(self, slots):
        self.bytes = draw.randbytes(RECORD * slots)
        self.head, self.count, self.slots, self.queue = 0, 0, slots, collections.deque()
        write(OPEN, self.bytes, draw.randrange(U32), draw.randrange(U32))

    def put(self):
        v = verdict()
        if len(self.queue) == self.slots:
            write(PUT, self.bytes, self.head, self.count, v, told=(FULL, 0, 0))
            return
        at = RECORD * ((self.head + len(self.queue)) % self.slots)
        after = self.bytes[:at] + record(v) + self.bytes[at + RECORD :]
        self.queue.append(record(v))
        write(PUT, self.bytes, self.head, self.count, v, told=(0, self.head, len(self.queue)), after=after)
        self.bytes, self.count = after, len(self.queue)

    def flush(self):
        most = draw.choice([0, 1, 2, self.slots, self.slots + 1, U32 - 1])
        n = min(most, len(self.queue))
        room = max(0, RECORD * n + draw.choice([0, 0, 0, 1, 31, 40, -1, -RECORD]))
        if room < RECORD * n:
            write(FLUSH, self.bytes, self.head, self.count, most=most, room=room, told=(NO_ROOM, 0, 0))
            return
        taken = b"".join(self.queue.popleft() for _ in range(n))
        head = (self.head + n) % self.slots
        write(FLUSH, self.bytes, self.head, self.count, most=most, room=room, told=(0, head, len(self.queue)), written=taken)
        self.head, self.count = head, len(self.queue)

    def astray(self):
        """A call with a head, a count or a size that is none of this ring."""
        head, count, ring = self.head, self.count, self.bytes
        kind = draw.randrange(3)
        if kind == 0:
            head = draw.choice([self.slots, self.slots + 1, U32 - 1, draw.randrange(self.slots, U32)])
        elif kind == 1:
            count = draw.choice([self.slots + 1, U32 - 1, draw.randrange(self.slots + 1, U32)])
        else:
            ring = ring[: draw.choice([0, len(ring) - 1, len(ring) - 31])]
        assert wrong(len(ring), head, count)
        write(PUT, ring, head, count, verdict(), told=(BAD_RING, 0, 0))
        write(FLUSH, ring, head, count, most=draw.randrange(4), room=draw.randrange(100), told=(BAD_RING, 0, 0))


for slots in range(1, 10):
    for _ in range(6):
        ring = Ring(slots)
        for _ in range(40):
            draw.choice([ring.put, ring.put, ring.flush, ring.flush, ring.put, ring.flush, ring.astray])()

# sizes about the limits, of a ring of zeros
largest = RECORD * MOST_SLOTS
for size in (0, 1, 31, 32, 33, 63, 64, largest - 32, largest - 1, largest, largest + 1, largest + 31, largest + 32):
    write(OPEN, b"", 0, 0, told=(BAD_RING if wrong_size(size) else 0, 0, 0), size=size)

# the largest ring: the slot behind the last is the first, and so is the head behind it
v = verdict()
zeros = bytes(2 * RECORD)
write(PUT, zeros, 2047, 1, v, told=(0, 2047, 2), after=record(v) + zeros[RECORD:], size=largest)
write(PUT, zeros, 0, 2048, v, told=(FULL, 0, 0), size=largest)
write(PUT, zeros, 1, 2047, v, told=(0, 1, 2048), after=record(v) + zeros[RECORD:], size=largest)
write(PUT, zeros, 2048, 0, v, told=(BAD_RING, 0, 0), size=largest)
write(PUT, zeros, 0, 2049, v, told=(BAD_RING, 0, 0), size=largest)
write(PUT, zeros, 0, 0, v, told=(BAD_RING, 0, 0), size=largest + 32)
write(FLUSH, record(v), 2047, 2048, most=2, room=64, told=(0, 1, 2046), written=bytes(32) + record(v), size=largest)
write(FLUSH, record(v), 2047, 3, most=1, room=32, told=(0, 0, 2), written=bytes(32), size=largest)
write(FLUSH, record(v), 0, 2048, most=2048, room=OUTPUT, told=(NO_ROOM, 0, 0), size=largest)
