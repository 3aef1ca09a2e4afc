import sys

from wire import delimited, field, number


def message(i, count):
    enum = i % max(count // 10, 1)
    fields = [
        field("id", 1, 1, 5),
        field("previous", 2, 1, 11, ".speed.Message%d" % max(i - 1, 0)),
        field("others", 3, 3, 11, ".speed.Message%d" % (i * 7919 % count)),
        field("kind", 4, 1, 14, ".speed.Enum%d" % enum, "ENUM%d_VALUE%d" % (enum, i % 20)),
        field("text", 5, 1, 9, oneof=0),
        field("bytes", 6, 1, 12, oneof=0),
    ]
    out = delimited(1, "Message%d" % i) + b"".join(delimited(2, f) for f in fields)
    return out + delimited(5, number(1, 100) + number(2, 200)) + delimited(8, delimited(1, "choice"))


def enum(i):
    values = b"".join(delimited(2, delimited(1, "ENUM%d_VALUE%d" % (i, j)) + number(2, j)) for j in range(20))
    return delimited(1, "Enum%d" % i) + values


def extension(i, count):
    return field("extension%d" % i, 100, 1, 5, extendee=".speed.Message%d" % (i * 5 % count))


def spread(count):
    file = b"".join(delimited(4, message(i, count)) for i in range(count))
    file += b"".join(delimited(5, enum(i)) for i in range(max(count // 10, 1)))
    return file + b"".join(delimited(7, extension(i, count)) for i in range(count // 5))


def ranges(count):
    own = b"".join(delimited(5, number(1, 2 * i + 2) + number(2, 2 * i + 3)) for i in reversed(range(count)))
    file = delimited(4, delimited(1, "Message") + own)
    return file + b"".join(delimited(7, field("x%d" % i, 2 * i + 2, 1, 5, extendee=".speed.Message")) for i in range(count))


def options(count):
    fields = b"".join(delimited(2, field("f%d" % i, i + 1, 3, 11, ".speed.Message")) for i in range(min(count, 18999)))
    return delimited(4, delimited(1, "Message") + fields + delimited(7, number(1, 0) * count))


def plain(j, before):
    """A message type with six fields, two of which are of message types of the file before."""
    fields = [
        field("field_0", 1, 1, 5),
        field("field_1", 2, 1, 9),
        field("field_2", 3, 1, 1),
        field("field_3", 4, 1, 11, ".speed.part%d.Message%d" % (before, (j + 3) % 10)),
        field("field_4", 5, 3, 11, ".speed.part%d.Message%d" % (before, (j + 4) % 10)),
        field("field_5", 6, 3, 8),
    ]
    return delimited(1, "Message%d" % j) + b"".join(delimited(2, f) for f in fields)


def part(i):
    """A file with ten message types, which depends on the file before."""
    file = delimited(1, "part%d.proto" % i) + delimited(2, "speed.part%d" % i)
    file += delimited(3, "part%d.proto" % (i - 1)) if i else b""
    return file + b"".join(delimited(4, plain(j, max(i - 1, 0))) for j in range(10)) + delimited(12, "proto3")


def files(count):
    return b"".join(delimited(1, part(i)) for i in range(count))


def one_file(shape, count):
    return delimited(1, delimited(1, "speed.proto") + delimited(2, "speed") + shape(count))


shape, count = sys.argv[1], int(sys.argv[2])
shapes = {"messages": spread, "ranges": ranges, "options": options}
sys.stdout.buffer.write(files(count) if shape == "files" else one_file(shapes[shape], count))
