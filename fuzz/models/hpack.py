"""HPACK from the words of RFC 7541, as far as the models need it.

Here are integers, strings, a table, a decoder, and an encoder with the choices that docs/PROTOCOL.md
names. A field is a tuple of its name, its value (both octets) and whether it is sensitive, so that it is
never indexed. The Huffman code has the codes of up to eight bits alone; they are canonical, so their
lengths say what they are (RFC 7541, appendix B)."""

# Appendix A, but for entries whose value is empty: these are in NAMES.
STATIC = {
    (b":method", b"GET"): 2, (b":method", b"POST"): 3, (b":path", b"/"): 4, (b":path", b"/index.html"): 5,
    (b":scheme", b"http"): 6, (b":scheme", b"https"): 7, (b":status", b"200"): 8, (b":status", b"204"): 9,
    (b":status", b"206"): 10, (b":status", b"304"): 11, (b":status", b"400"): 12, (b":status", b"404"): 13,
    (b":status", b"500"): 14, (b"accept-encoding", b"gzip, deflate"): 16,
}
NAMES = (
    "accept-charset accept-encoding accept-language accept-ranges accept access-control-allow-origin age allow "
    "authorization cache-control content-disposition content-encoding content-language content-length "
    "content-location content-range content-type cookie date etag expect expires from host if-match "
    "if-modified-since if-none-match if-range if-unmodified-since last-modified link location max-forwards "
    "proxy-authenticate proxy-authorization range referer refresh retry-after server set-cookie "
    "strict-transport-security transfer-encoding user-agent vary via www-authenticate"
).encode().split()
STATIC_NAMES = {b":authority": 1, b":method": 2, b":path": 4, b":scheme": 6, b":status": 8}
STATIC_NAMES.update({name: 15 + place for place, name in enumerate(NAMES)})
BY_INDEX = {index: name for name, index in STATIC_NAMES.items()}
FIELDS_BY_INDEX = {index: (name, b"") for index, name in BY_INDEX.items()}
FIELDS_BY_INDEX.update({index: pair for pair, index in STATIC.items()})
STATIC_COUNT = 61

CODE_LENGTHS = {
    5: b"012aceiost",
    6: b" %-./3456789=A_bdfghlmnpru",
    7: b":BCDEFGHIJKLMNOPQRSTUVWYjkqvwxyz",
    8: b"&*,;XZ",
}


def canonical_codes():
    """Of each octet the bits of its code: codes count on in the order of lengths, then of octets."""
    codes, code, last = {}, 0, 5
    for length, octets in CODE_LENGTHS.items():
        code <<= length - last
        last = length
        for octet in octets:
            codes[octet] = format(code, f"0{length}b")
            code += 1
    return codes


CODES = canonical_codes()
OCTETS = {bits: octet for octet, bits in CODES.items()}


class BadBlock(Exception):
    """A block that does not decode."""


def integer(prefix, bits, value):
    """Section 5.1: an integer after a prefix of so many bits."""
    full = (1 << bits) - 1
    if value < full:
        return bytes([prefix | value])
    out = bytearray([prefix | full])
    value -= full
    while value >= 128:
        out.append(value % 128 | 128)
        value //= 128
    out.append(value)
    return bytes(out)


def string(octets):
    """Section 5.2: Huffman-encoded where that is not longer."""
    if all(octet in CODES for octet in octets):
        bits = "".join(CODES[octet] for octet in octets)
        bits += "1" * (-len(bits) % 8)
        if len(bits) // 8 <= len(octets):
            coded = int(bits, 2).to_bytes(len(bits) // 8, "big") if bits else b""
            return integer(0x80, 7, len(coded)) + coded
    return integer(0, 7, len(octets)) + octets


def raw(octets):
    """A string that is not Huffman-encoded."""
    return integer(0, 7, len(octets)) + octets


def huffman_text(coded):
    text, bits = bytearray(), ""
    for octet in coded:
        for bit in format(octet, "08b"):
            bits += bit
            if bits in OCTETS:
                text.append(OCTETS[bits])
                bits = ""
    if len(bits) > 7 or "0" in bits:
        raise BadBlock
    return bytes(text)


def size_of(fields):
    """The size of a list (RFC 9113, section 6.5.2)."""
    return sum(len(field[0]) + len(field[1]) + 32 for field in fields)


class Table:
    """Section 2.3.2: the newest entry first."""

    def __init__(self):
        self.maximum = 4_096
        self.entries = []
        self.size = 0

    def evict(self, most):
        while self.size > most:
            name, value = self.entries.pop()
            self.size -= len(name) + len(value) + 32

    def resize(self, maximum):
        self.maximum = maximum
        self.evict(maximum)

    def add(self, name, value):
        """Section 4.4: an entry that is larger than the table empties it."""
        size = len(name) + len(value) + 32
        self.evict(max(0, self.maximum - size))
        if size <= self.maximum:
            self.entries.insert(0, (name, value))
            self.size += size

    def at(self, index):
        if index in FIELDS_BY_INDEX:
            return FIELDS_BY_INDEX[index]
        if STATIC_COUNT < index <= STATIC_COUNT + len(self.entries):
            return self.entries[index - STATIC_COUNT - 1]
        raise BadBlock


class Decoder:
    """Reads blocks; its limit is the value of SETTINGS_HEADER_TABLE_SIZE in force."""

    def __init__(self):
        self.table = Table()
        self.limit = 4_096

    def decode(self, block):
        """The fields of a block. BadBlock where it is none (section 6)."""
        self.block, self.place = block, 0
        fields, count = [], len(block)
        while self.place < count:
            first = block[self.place]
            if first >> 5 == 1:
                self.update(fields)
                continue
            if self.table.maximum > self.limit:
                raise BadBlock
            if first & 0x80:
                fields.append((*self.table.at(self.integer(7)), False))
            else:
                fields.append(self.literal(first))
        if self.table.maximum > self.limit:
            raise BadBlock
        return fields

    def update(self, fields):
        """A size update stands before all fields, and is at most the limit (section 4.2, 6.3)."""
        size = self.integer(5)
        if fields or size > self.limit:
            raise BadBlock
        self.table.resize(size)

    def literal(self, first):
        """Section 6.2."""
        index = self.integer(6 if first & 0x40 else 4)
        name = self.table.at(index)[0] if index else self.string()
        value = self.string()
        if first & 0x40:
            self.table.add(name, value)
        return (name, value, bool(first & 0x10) and not first & 0x40)

    def octet(self):
        if self.place >= len(self.block):
            raise BadBlock
        self.place += 1
        return self.block[self.place - 1]

    def integer(self, bits):
        full = (1 << bits) - 1
        value = self.octet() & full
        if value < full:
            return value
        shift = 0
        while True:
            octet = self.octet()
            value += (octet & 127) << shift
            shift += 7
            if not octet & 128:
                return value

    def string(self):
        coded = self.place < len(self.block) and self.block[self.place] & 0x80
        length = self.integer(7)
        octets = self.block[self.place:self.place + length]
        if len(octets) < length:
            raise BadBlock
        self.place += length
        return huffman_text(octets) if coded else bytes(octets)


class Encoder:
    """Writes blocks, with the choices of docs/PROTOCOL.md; it uses 4,096 octets at most."""

    def __init__(self):
        self.table = Table()
        self.limit = self.least = 4_096

    def set_limit(self, limit):
        """The peer's SETTINGS_HEADER_TABLE_SIZE."""
        self.limit = min(limit, 4_096)
        self.least = min(self.least, self.limit)

    def updates(self):
        """The least limit since the last block, where that is below the maximum, and the one now."""
        out = b""
        for size in (min(self.least, self.table.maximum), self.limit):
            if size != self.table.maximum:
                out += integer(0x20, 5, size)
                self.table.resize(size)
        self.least = self.limit
        return out

    def encode(self, fields):
        return self.updates() + b"".join(self.field(*field) for field in fields)

    def field(self, name, value, sensitive):
        entries = self.table.entries
        if not sensitive and (name, value) in STATIC:
            return integer(0x80, 7, STATIC[name, value])
        if not sensitive and (name, value) in entries:
            return integer(0x80, 7, STATIC_COUNT + 1 + entries.index((name, value)))
        names = [entry[0] for entry in entries]
        index = STATIC_NAMES.get(name, 0)
        if not index and name in names:
            index = STATIC_COUNT + 1 + names.index(name)
        if sensitive:
            head = integer(0x10, 4, index)
        elif len(name) + len(value) + 32 > self.table.maximum:
            head = integer(0x00, 4, index)
        else:
            head = integer(0x40, 6, index)
            self.table.add(name, value)
        return head + (b"" if index else string(name)) + string(value)
