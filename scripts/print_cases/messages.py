"""Makes messages of all sorts, by the types of a descriptor set, as bytes of the wire format."""

import struct

from wire import delimited, group, varint

DOUBLE, FLOAT, INT64, UINT64, INT32, FIXED64, FIXED32, BOOL, STRING, GROUP, MESSAGE, BYTES, UINT32, ENUM, SFIXED32, SFIXED64, SINT32, SINT64 = range(1, 19)

REPEATED = 3

FIXED = {DOUBLE: 8, FIXED64: 8, SFIXED64: 8, FLOAT: 4, FIXED32: 4, SFIXED32: 4}

TEXTS = ["", "a", "two words", "quotes \" ' and \\", "\t\r\n\0\x7f\x01", "gr\u00fc\u00dfe \u20ac \U0001f600", "{ } : [a.b]", "\x08\x96\x01", "\u0080\u07ff\u0800"]

INTEGERS = [0, 1, -1, 127, 128, 300, 2**31 - 1, -(2**31), 2**31, 2**32 - 1, 2**32, 2**63 - 1, -(2**63), 2**64 - 1]


def records(data):
    """The numbers, wire types and contents of the records of a message that has no groups."""
    at = 0

    def read():
        nonlocal at
        value, shift = 0, 0
        while True:
            byte = data[at]
            at += 1
            value |= (byte & 127) << shift
            shift += 7
            if byte < 128:
                return value

    while at < len(data):
        key = read()
        if key & 7 == 0:
            yield key >> 3, read()
        else:
            size = read() if key & 7 == 2 else {1: 8, 5: 4}[key & 7]
            yield key >> 3, data[at : at + size]
            at += size


class Field:
    def __init__(self, data):
        found = dict(records(data))
        self.number = found[3]
        self.repeated = found[4] == REPEATED
        self.kind = found[5]
        self.type_name = found.get(6, b"").decode()[1:]
        self.extendee = found.get(2, b"").decode()[1:]


class Types:
    """The fields of the message types of a descriptor set, and the numbers of its enums, by full name."""

    def __init__(self, data):
        self.fields, self.enums, self.entries = {}, {}, set()
        for number, file in records(data):
            package = dict(records(file)).get(2, b"").decode()
            for number, body in records(file):
                if number == 4:
                    self.add_message(package, body)
                elif number == 5:
                    self.add_enum(package, body)
        for number, file in records(data):
            self.add_extensions(file, 7, 4)

    def add_message(self, scope, data):
        name = scope + "." + dict(records(data))[1].decode()
        self.fields[name] = [Field(body) for number, body in records(data) if number == 2]
        if dict(records(dict(records(data)).get(7, b""))).get(7):
            self.entries.add(name)
        for number, body in records(data):
            if number == 3:
                self.add_message(name, body)
            elif number == 4:
                self.add_enum(name, body)

    def add_enum(self, scope, data):
        name = scope + "." + dict(records(data))[1].decode()
        values = [dict(records(body)) for number, body in records(data) if number == 2]
        self.enums[name] = [signed(value[2], 64) for value in values]

    def add_extensions(self, data, extension, nested):
        for number, body in records(data):
            if number == extension:
                field = Field(body)
                self.fields[field.extendee].append(field)
            elif number == nested:
                self.add_extensions(body, 6, 3)


def signed(value, bits):
    value %= 1 << bits
    return value - (1 << bits) if value >= 1 << (bits - 1) else value


def integer(random):
    return random.choice(INTEGERS) if random.random() < 0.6 else random.getrandbits(random.randrange(1, 65))


def scalar(random, types, field, strange):
    """A value of a scalar kind, as its payload without a key or a length; a strange one may be a number that no enum declares."""
    kind = field.kind
    if kind in FIXED:
        return struct.pack("<Q", random.getrandbits(64) if random.random() < 0.7 else 0)[: FIXED[kind]]
    if kind == ENUM:
        return varint(random.choice(types.enums[field.type_name] + [99] * strange))
    if kind == BOOL:
        return varint(random.choice([0, 1, 1, 5]))
    return varint(integer(random))


def text(random, kind):
    if kind == BYTES and random.random() < 0.5:
        return bytes(random.getrandbits(8) for _ in range(random.randrange(12)))
    return random.choice(TEXTS).encode()


def key_of(types, name, entry):
    """The key of an entry of a map."""
    kind = types.fields[name][0].kind
    key = dict(records(entry)).get(1)
    if key is None:
        key = b"" if kind == STRING else bytes(FIXED[kind]) if kind in FIXED else 0
    if kind == BOOL:
        return key != 0
    return key % 2**32 if kind in (INT32, UINT32, SINT32) else key


def entries(random, types, field, depth):
    """Records of the entries of a map, each of another key; `protoc` prints each of those that have one key."""
    found = {}
    for _ in range(random.choice([1, 2, 5])):
        parts = [one(random, types, part, depth - 1, part.kind == MESSAGE) for part in types.fields[field.type_name] if random.random() < 0.9]
        random.shuffle(parts)
        entry = b"".join(parts)
        found.setdefault(key_of(types, field.type_name, entry), delimited(field.number, entry))
    return list(found.values())


def one(random, types, field, depth, strange=True):
    """A record of one value of the field."""
    if field.kind in (STRING, BYTES):
        return delimited(field.number, text(random, field.kind))
    if field.kind == MESSAGE:
        return delimited(field.number, message(random, types, field.type_name, depth - 1, strange))
    if field.kind == GROUP:
        return group(field.number, message(random, types, field.type_name, depth - 1, strange))
    wire_type = {8: 1, 4: 5}.get(FIXED.get(field.kind), 0)
    return varint(8 * field.number + wire_type) + scalar(random, types, field, strange)


def some(random, types, field, depth, strange):
    """Records of the field: of one value, of several, or of a packed list."""
    if field.type_name in types.entries:
        return entries(random, types, field, depth)
    if not field.repeated:
        again = [one(random, types, field, 1, False)] if random.random() < 0.2 else []
        return [one(random, types, field, depth, strange), *again]
    count = random.choice([1, 2, 3])
    if field.kind not in (STRING, BYTES, MESSAGE, GROUP) and random.random() < 0.5:
        return [delimited(field.number, b"".join(scalar(random, types, field, strange) for _ in range(count)))]
    return [one(random, types, field, depth, strange) for _ in range(count)]


def unknown(random, number, depth):
    """A record of a number that no type knows."""
    sort = random.randrange(6 if depth > 0 else 4)
    if sort == 0:
        return varint(8 * number) + varint(integer(random))
    if sort == 1:
        return varint(8 * number + 1) + struct.pack("<Q", random.getrandbits(64))
    if sort == 2:
        return varint(8 * number + 5) + struct.pack("<I", random.getrandbits(32))
    if sort == 3:
        return delimited(number, text(random, random.choice([STRING, BYTES])))
    body = unknowns(random, [random.choice([1, 2, 3, 15, 16, 1000, 2**29 - 1]) for _ in range(random.randrange(4))], depth - 1)
    return group(number, body) if sort == 4 else delimited(number, body)


def unknowns(random, numbers, depth):
    return b"".join(unknown(random, number, depth) for number in numbers)


def message(random, types, name, depth, strange=True):
    """A message of the type, whose fields may come in any order; a strange one may have unknown fields, which ascend."""
    fields = [field for field in types.fields[name] if depth > 1 or field.kind not in (GROUP, MESSAGE)]
    chosen = [field for field in fields if random.random() < min(1, 4 / (len(fields) or 1))]
    known = [(field, record) for field in chosen for record in some(random, types, field, depth, strange)]
    if random.random() < 0.3:
        shuffle(random, known)
    written = b"".join(record for _, record in known)
    if strange and random.random() < 0.3:
        written += unknowns(random, sorted(random.choice([300, 301, 302, 399, 449]) for _ in range(2)), 3)
    return written


def shuffle(random, known):
    """Shuffles the records, but for those of enums, whose unknown numbers become unknown fields in the order of the bytes."""
    places = [place for place, (field, _) in enumerate(known) if field.kind != ENUM]
    moved = [known[place] for place in places]
    random.shuffle(moved)
    for place, entry in zip(places, moved):
        known[place] = entry
