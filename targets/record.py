"""Reads a record of calls; compare/src/record.rs has the form of the file."""

import struct

MARK = b"TIPCALLS"
NAMES = "read common keep goal quick best along exact check junior merge alone mend report order windows order_by_tips".split()
BUFFERS = [2, 2, 3, 3, 3, 4, 3, 4, 4, 3, 4, 4, 4, 2, 4, 5, 5]
END = 255


class Reader:
    def __init__(self, data):
        self.data, self.at = data, 0

    def take(self, size):
        self.at += size
        assert self.at <= len(self.data), "the record is not whole"
        return self.data[self.at - size : self.at]

    def number(self, form):
        return struct.unpack("<" + form, self.take(struct.calcsize(form)))[0]


def calls_of(data):
    """Of each call the function, its bytes up to the buffers, and each buffer as its head, cells and stretches."""
    reader = Reader(data)
    assert reader.take(8) == MARK, "no record"
    while (function := reader.number("B")) != END:
        head, buffers = reader.take(24), []
        for _ in range(BUFFERS[function]):
            width, cells, start, length = form = struct.unpack("<BIII", reader.take(13))
            before = reader.take(width * cells)
            stretches = []
            for _ in range(reader.number("I")):
                first, size = reader.number("I"), reader.number("I")
                stretches.append((first, reader.take(size)))
            buffers.append((form, before, stretches))
        yield function, head, buffers
