"""Writes records of the Protocol Buffers wire format, and definitions of fields, for the scripts beside it."""


def varint(n):
    n &= (1 << 64) - 1
    out = b""
    while n > 127:
        out += bytes([n & 127 | 128])
        n >>= 7
    return out + bytes([n])


def number(n, value):
    return varint(8 * n) + varint(value)


def delimited(n, body):
    body = body.encode() if isinstance(body, str) else body
    return varint(8 * n + 2) + varint(len(body)) + body


def group(n, body=b""):
    return varint(8 * n + 3) + body + varint(8 * n + 4)


def field(name, n, label, kind, type_name=None, default=None, options=b"", oneof=None, extendee=None):
    """The body of a FieldDescriptorProto."""
    out = delimited(1, name)
    if extendee:
        out += delimited(2, extendee)
    out += number(3, n) + number(4, label) + number(5, kind)
    if type_name:
        out += delimited(6, type_name)
    if default:
        out += delimited(7, default)
    if options:
        out += delimited(8, options)
    return out if oneof is None else out + number(9, oneof)
