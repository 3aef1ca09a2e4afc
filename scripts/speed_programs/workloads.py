"""The descriptor set and the messages of the workloads of scripts/speed.

`SET` is the set, of one file. `WORKLOADS` has for each name of a message that is read and written the message type, a
function that makes the message's bytes, and what that is given. `LOOPS` has for each name of a loop the same behind the name
of the steps that the programs take. `made` gives a workload with the type's full name and the bytes, which are the same each
time.
"""
import collections
import random
import struct

import wire
from wire import delimited, group, number, varint

DOUBLE, INT64, INT32, FIXED64, STRING, MESSAGE, BYTES, UINT32, SINT64, BOOL = 1, 3, 5, 6, 9, 11, 12, 13, 18, 8
OPTIONAL, REPEATED = 1, 3


def double(n, value):
    return varint(8 * n + 1) + struct.pack("<d", value)


def fixed64(n, value):
    return varint(8 * n + 1) + struct.pack("<Q", value)


def field(name, n, kind, label=OPTIONAL, rest=b""):
    """The definition of a field; its kind is a scalar's, or the name of a message type."""
    kind, type_name = (MESSAGE, ".speed." + kind) if isinstance(kind, str) else (kind, None)
    return delimited(2, wire.field(name, n, label, kind, type_name) + rest)


def message(name, *parts):
    return delimited(4, delimited(1, name) + b"".join(parts))


def entry_of(name, kind, value):
    """The type of a map's entries, nested in a message type."""
    entry = delimited(1, name) + field("key", 1, kind) + field("value", 2, value) + delimited(7, number(7, 1))
    return delimited(3, entry)


def map_of(name, kind, value):
    """A message type whose field 1 is a map."""
    return message(name, field("entries", 1, name + ".EntriesEntry", REPEATED), entry_of("EntriesEntry", kind, value))


# The fields of the message type `Wide`, whose kinds go round.
WIDE = 1_000
WIDE_KINDS = INT32, STRING, SINT64, "Label"


def wide_kind(n):
    return WIDE_KINDS[n % len(WIDE_KINDS)]


NOT_PACKED = delimited(8, number(2, 0))
MEMBER = number(9, 0)
OPTIONAL_OF_PROTO3 = number(9, 1) + number(17, 1)

FILE = delimited(1, "speed.proto") + delimited(2, "speed") + b"".join([
    message("Label", field("text", 1, STRING), field("delta", 2, SINT64)),
    message("Item", field("id", 1, INT32), field("name", 2, STRING), field("value", 3, DOUBLE), field("tags", 4, UINT32, REPEATED),
            field("label", 5, "Label"), field("flag", 6, BOOL)),
    message("Items", field("items", 1, "Item", REPEATED)),
    message("Packed", field("numbers", 1, INT32, REPEATED)),
    message("Loose", field("numbers", 1, INT32, REPEATED, NOT_PACKED)),
    message("Fixed", field("numbers", 1, FIXED64, REPEATED)),
    map_of("TextMap", STRING, INT32),
    map_of("ItemMap", INT32, "Label"),
    message("Deep", field("next", 1, "Deep"), field("number", 2, INT32)),
    message("Deeps", field("deeps", 1, "Deep", REPEATED)),
    message("Texts", field("texts", 1, STRING, REPEATED), field("bytes", 2, BYTES, REPEATED)),
    message("Small", field("id", 1, INT32), field("text", 2, STRING), field("count", 3, INT64, rest=OPTIONAL_OF_PROTO3),
            field("name", 4, STRING, rest=MEMBER), field("label", 5, "Label", rest=MEMBER),
            delimited(8, delimited(1, "choice")), delimited(8, delimited(1, "_count"))),
    message("Nothing"),
    message("Request", field("id", 1, INT64), field("user", 2, STRING), field("session", 3, STRING), field("path", 4, STRING),
            field("method", 5, UINT32), field("status", 6, INT32), field("received", 7, FIXED64), field("seconds", 8, DOUBLE),
            field("is_retried", 9, BOOL), field("tags", 10, STRING, REPEATED), field("codes", 11, UINT32, REPEATED),
            field("origin", 12, "Label"), field("body", 13, BYTES), field("locale", 14, STRING), field("attempts", 15, UINT32),
            field("offset", 16, SINT64), field("limit", 17, INT32), field("score", 18, DOUBLE), field("note", 19, STRING),
            field("parent", 20, "Label")),
    message("Address", field("street", 1, STRING), field("number", 2, INT32), field("city", 3, STRING)),
    message("Owner", field("name", 1, STRING), field("address", 2, "Address")),
    message("Catalog", field("items", 1, "Item", REPEATED), field("owner", 2, "Owner")),
    message("OlderItem", field("id", 1, INT32), field("name", 2, STRING), field("tags", 4, UINT32, REPEATED)),
    message("OlderCatalog", field("items", 1, "OlderItem", REPEATED)),
    message("Wide", *[field("f%d" % n, n, wide_kind(n)) for n in range(1, WIDE + 1)]),
    message("All", field("items", 1, "Item", REPEATED), field("numbers", 2, INT32, REPEATED),
            field("names", 3, "All.NamesEntry", REPEATED), field("labels", 4, "All.LabelsEntry", REPEATED),
            field("deeps", 5, "Deep", REPEATED), entry_of("NamesEntry", STRING, INT32), entry_of("LabelsEntry", INT32, "Label")),
]) + delimited(12, "proto3")
SET = delimited(1, FILE)

chance = random.Random()


def label():
    return delimited(1, "label-%d" % chance.randint(0, 9999)) + number(2, chance.getrandbits(20) + 1)


def item(i):
    tags = b"".join(varint(chance.getrandbits(10)) for _ in range(chance.randint(1, 5)))
    flag = number(6, 1) if i % 2 else b""
    return number(1, i + 1) + delimited(2, "item number %d" % i) + double(3, i * 1.5 + 1) + delimited(4, tags) + delimited(5, label()) + flag


def items(count):
    return b"".join(delimited(1, item(i)) for i in range(count))


def packed(count):
    return delimited(1, b"".join(varint(chance.getrandbits(chance.choice([6, 13, 20, 27]))) for _ in range(count)))


def negative(count):
    return delimited(1, b"".join(varint(-chance.randint(1, 1 << 30)) for _ in range(count)))


def loose(count):
    return b"".join(number(1, chance.getrandbits(20)) for _ in range(count))


def fixed(count):
    return delimited(1, b"".join(struct.pack("<Q", chance.getrandbits(64)) for _ in range(count)))


def text_map(count):
    return b"".join(delimited(1, delimited(1, "key-%08d" % (i * 7919 % 10000019)) + number(2, i + 1)) for i in range(count))


def item_map(count):
    return b"".join(delimited(1, number(1, i * 7919 % 1000003 + 1) + delimited(2, label())) for i in range(count))


def nested(levels):
    body = number(2, 1)
    for level in range(1, levels):
        body = delimited(1, body) + number(2, level)
    return body


def deep(count, levels):
    return delimited(1, nested(levels)) * count


def texts():
    return delimited(1, "text \u00e9\u20ac " * 25000) * 8 + delimited(2, bytes(262144)) * 6


def ascii_texts():
    return delimited(1, "plain old ascii " * 16384) * 16


def small():
    return number(1, 42) + delimited(2, "small message") + number(3, 41) + delimited(5, label())


def groups(count):
    return b"".join(group(9, number(1, i) + delimited(2, "inside")) for i in range(count))


def request():
    session = "session-" + "0123456789abcdef" * 2
    texts = delimited(2, "user-481516") + delimited(3, session) + delimited(4, "/shelves/12/books/4711/pages")
    numbers = number(5, 3) + number(6, 200) + fixed64(7, 1_700_000_000_000_000) + double(8, 0.0125) + number(9, 1)
    codes = b"".join(varint(i * 99 + 1) for i in range(4))
    lists = b"".join(delimited(10, "tag-%04d" % i) for i in range(3)) + delimited(11, codes)
    middle = delimited(12, label()) + delimited(13, bytes(range(160))) + delimited(14, "de-CH") + number(15, 2)
    rest = number(16, 86) + number(17, 500) + double(18, 0.75) + delimited(19, "as it came in") + delimited(20, label())
    return number(1, 1 << 40) + texts + numbers + lists + middle + rest


def catalog(count):
    address = delimited(1, "Long Street") + number(2, 7) + delimited(3, "Elsewhere")
    return items(count) + delimited(2, delimited(1, "the owner") + delimited(2, address))


def wide():
    make = {INT32: lambda n: number(n, n), STRING: lambda n: delimited(n, "text of %d" % n), SINT64: lambda n: number(n, 2 * n),
            "Label": lambda n: delimited(n, label())}
    return b"".join(make[wide_kind(n)](n) for n in range(1, WIDE + 1))


# What is merged into a message of the type `Wide`: a number, a text and a message.
PART = number(400, 123_456) + delimited(777, "another text in") + delimited(203, delimited(1, "label-0815") + number(2, 99))


def all_sorts(count):
    names = b"".join(delimited(3, delimited(1, "key-%08d" % (i * 7919 % 10000019)) + number(2, i + 1)) for i in range(count // 2))
    labels = b"".join(delimited(4, number(1, i * 7919 % 1000003 + 1) + delimited(2, label())) for i in range(count // 2))
    numbers = delimited(2, b"".join(varint(chance.getrandbits(chance.choice([6, 13, 20, 27]))) for _ in range(5 * count)))
    return items(count) + numbers + names + labels + delimited(5, nested(98)) * (count // 100)


def built(count):
    """The message that the programs build: a list of items, in each of which are eight fields and three elements."""
    out = b""
    for i in range(count):
        tags = delimited(4, varint(i) + varint(i + 1) + varint(i + 2))
        inside = delimited(5, delimited(1, "label") + number(2, 2 * (i + 1)))
        value = fixed64(3, 0x3FF0_0000_0000_0000 + i)
        out += delimited(1, number(1, i + 1) + delimited(2, "item number") + value + tags + inside + number(6, 1))
    return out


WORKLOADS = {
    "items": ("Items", items, 20_000),
    "packed": ("Packed", packed, 1_000_000),
    "negative": ("Packed", negative, 200_000),
    "loose": ("Loose", loose, 300_000),
    "fixed": ("Fixed", fixed, 500_000),
    "text_map": ("TextMap", text_map, 50_000),
    "item_map": ("ItemMap", item_map, 50_000),
    "deep": ("Deeps", deep, 1_000, 98),
    "texts": ("Texts", texts),
    "ascii": ("Texts", ascii_texts),
    "small": ("Small", small),
    "unknown": ("Nothing", items, 20_000),
    "groups": ("Nothing", groups, 50_000),
}

LOOPS = {
    "serve": ("serve", "Request", request),
    "edit": ("edit", "Catalog", catalog, 870),
    "pass": ("pass", "OlderCatalog", catalog, 870),
    "merge_small": ("merge", "Wide", wide),
    "walk": ("walk", "All", all_sorts, 10_500),
    "build": ("build", "Items", built, 834),
}

# The steps that a program takes, the full name of the message type, the bytes of a message, and those that are merged into it.
Workload = collections.namedtuple("Workload", "steps type_name message part")


def made(name):
    steps, message_type, make, *sizes = LOOPS[name] if name in LOOPS else ("read_write", *WORKLOADS[name])
    chance.seed(7)
    return Workload(steps, "speed." + message_type, make(*sizes), PART if steps == "merge" else b"")
