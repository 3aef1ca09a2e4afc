"""Runs calls and commands with their first, second and so on allocation refused, and says how many there were of each.
    cases.py CALLS PROTORELAY REFUSE
CALLS is the program that makes calls, PROTORELAY the program of this repository, and REFUSE the library that refuses."""
import concurrent.futures
import os
import subprocess
import sys
import tempfile

import wire
from wire import delimited, group, number, varint

calls, protorelay, library = map(os.path.abspath, sys.argv[1:])


def fixed(n, wire_type, size):
    return varint(8 * n + wire_type) + bytes(range(1, size + 1))


NOTE = delimited(1000, "a note that is read as an option")


def field(name, *rest, **named):
    return wire.field(name, *rest, **named) + delimited(10, name + "Json")


def entry(name, key, value, type_name=None):
    fields = field("key", 1, 1, key), field("value", 2, 1, value, type_name)
    return delimited(1, name) + b"".join(delimited(2, it) for it in fields) + delimited(7, number(7, 1))


def range_of(start, end):
    return number(1, start) + number(2, end)


# One field of each kind, whose numbers are those of the kinds; lists, maps and a oneof.
SCALARS = {1: "double", 2: "float", 3: "int64", 4: "uint64", 5: "int32", 6: "fixed64", 7: "fixed32", 8: "bool"}
SCALARS |= {9: "string", 12: "bytes", 13: "uint32", 15: "sfixed32", 16: "sfixed64", 17: "sint32", 18: "sint64"}
DEFAULTS = {5: "-7", 9: "a text that a field has by default", 12: "bytes \\001 that a field has by default"}
EVERY_FIELD = field("f_double", 1, 1, 1, options=NOTE)
FIELDS = [EVERY_FIELD] + [field("f_" + name, n, 1, n, default=DEFAULTS.get(n)) for n, name in SCALARS.items() if n > 1]
FIELDS += [
    field("group", 10, 1, 10, ".every.Every.Group"),
    field("message", 11, 1, 11, ".every.Every"),
    field("closed", 14, 1, 14, ".every.Closed", "B"),
    field("unpacked", 19, 3, 5),
    field("packed", 20, 3, 5, options=number(2, 1)),
    field("texts", 21, 3, 9),
    field("messages", 22, 3, 11, ".every.Every"),
    field("numbers", 23, 3, 14, ".every.Closed", options=number(2, 1)),
    field("counts", 24, 3, 11, ".every.Every.CountsEntry"),
    field("inner", 25, 3, 11, ".every.Every.InnerEntry"),
    field("named", 26, 3, 11, ".every.Every.NamedEntry"),
    field("groups", 27, 3, 10, ".every.Every.Groups"),
    field("one_number", 30, 1, 5, oneof=0),
    field("one_text", 31, 1, 9, oneof=0),
    field("one_message", 32, 1, 11, ".every.Every", oneof=0),
]
GROUP = b"".join(delimited(2, it) for it in (field("x", 1, 1, 5), field("s", 2, 1, 9)))
NESTED = [
    delimited(1, "Group") + GROUP,
    delimited(1, "Groups") + GROUP,
    entry("CountsEntry", 9, 5),
    entry("InnerEntry", 5, 11, ".every.Every"),
    entry("NamedEntry", 9, 14, ".every.Closed"),
]
ONEOF = delimited(1, "one") + delimited(2, NOTE)
EXTENSION_RANGE = range_of(100, 200) + delimited(3, NOTE)
EVERY = delimited(1, "Every") + b"".join(delimited(2, it) for it in FIELDS) + b"".join(delimited(3, it) for it in NESTED)
EVERY += delimited(5, EXTENSION_RANGE) + delimited(7, NOTE) + delimited(8, ONEOF) + delimited(9, range_of(500, 600))
EVERY += delimited(10, "reserved")
VALUE = delimited(1, "B") + number(2, 1) + delimited(3, NOTE)
FIRST = delimited(1, "A") + number(2, 0) + delimited(3, NOTE)
CLOSED = delimited(1, "Closed") + delimited(2, FIRST) + delimited(2, VALUE) + delimited(3, NOTE)
CLOSED += delimited(4, range_of(-5, -3)) + delimited(5, "GONE")
METHOD = delimited(1, "Go") + delimited(2, ".every.Every") + delimited(3, ".every.Every") + delimited(4, NOTE) + number(5, 1)
SERVICE = delimited(1, "Service") + delimited(2, METHOD) + delimited(3, NOTE)
TEXT_EXTENSION = field("text_extension", 100, 1, 9, extendee=".every.Every", default="by default", options=NOTE)
EXTENSIONS = [TEXT_EXTENSION, field("message_extension", 101, 3, 11, ".every.Every", extendee=".every.Every")]
FILE = delimited(1, "every.proto") + delimited(2, "every") + delimited(3, "google/protobuf/descriptor.proto")
FILE += delimited(4, EVERY) + delimited(5, CLOSED) + delimited(6, SERVICE)
FILE += b"".join(delimited(7, it) for it in EXTENSIONS) + delimited(8, NOTE) + number(10, 0) + number(11, 0)

# The message types of options, with a text each.
OPTIONS = "File Message Field Oneof Enum EnumValue Service Method".split()
OPTIONS_FILE = delimited(1, "google/protobuf/descriptor.proto") + delimited(2, "google.protobuf")
for sort in OPTIONS:
    OPTIONS_FILE += delimited(4, delimited(1, sort + "Options") + delimited(2, field("note", 1000, 1, 9)))
SET = delimited(1, OPTIONS_FILE) + delimited(1, FILE)
ADDED = delimited(1, "added.proto") + delimited(2, "added") + delimited(3, "every.proto") + delimited(
    4, delimited(1, "Added") + delimited(2, field("every", 1, 1, 11, ".every.Every"))
) + delimited(12, "proto3")

# A message with each form of field, records that its type does not know, and numbers that its enum does not declare.
SMALL = number(5, 42) + delimited(9, "in a message") + number(44, 3) + group(46, delimited(1, "in a group"))
WIDTHS = {1: (1, 8), 2: (5, 4), 6: (1, 8), 7: (5, 4), 15: (5, 4), 16: (1, 8)}
VALUES = {n: fixed(n, *WIDTHS[n]) if n in WIDTHS else number(n, 1) for n in SCALARS}
VALUES[9], VALUES[12] = delimited(9, "a text in place of the default"), delimited(12, b"\0\1\2 bytes in place of it")
VALUES |= {
    10: group(10, number(1, 5) + delimited(2, "in a group") + number(9, 1)),
    11: delimited(11, SMALL),
    14: number(14, 1) + number(14, 7),
    19: number(19, 1) + number(19, -1) + delimited(19, varint(5) + varint(6)),
    20: delimited(20, varint(1) + varint(2)) + number(20, 3),
    21: delimited(21, "one") + delimited(21, "two"),
    22: delimited(22, SMALL) + delimited(22, b""),
    23: delimited(23, varint(1) + varint(7) + varint(0)),
    24: delimited(24, delimited(1, "b") + number(2, 1)) + delimited(24, delimited(1, "a") + number(2, 2)),
    25: delimited(25, number(1, 3) + delimited(2, SMALL)) + delimited(25, number(1, 2)),
    26: delimited(26, delimited(1, "a") + number(2, 1)) + delimited(26, delimited(1, "b") + number(2, 7)),
    27: group(27, number(1, 1)) + group(27, delimited(2, "two")),
    30: number(30, 5),
    31: delimited(31, "of the oneof"),
    32: delimited(32, SMALL),
}
ONE_OF = (30, 31, 32)
BYTES = b"".join(VALUES[n] for n in VALUES if n not in ONE_OF[:2]) + delimited(100, "an extension")
BYTES += delimited(101, SMALL) + delimited(101, SMALL) + number(45, 1) + group(46, SMALL) + delimited(47, "unknown")
# So many fields that their slots stand in runs, and then one member of a oneof after another.
MANY = b"".join(number(n, 1) for n in range(1000, 1150)) + VALUES[30] + VALUES[31] + VALUES[30] + VALUES[32]
UNKNOWN = group(3, delimited(1, "hello") + group(2, number(1, 5) + delimited(2, "world")) + fixed(3, 1, 8) + fixed(4, 5, 4))

RECORDS = {
    "FileDescriptorSet": SET,
    "FileDescriptorProto": FILE + delimited(9, b""),
    "DescriptorProto": EVERY,
    "ExtensionRange": EXTENSION_RANGE,
    "ReservedRange": range_of(4, 5),
    "FieldDescriptorProto": field("f", 1, 1, 9, ".every.Every", "default", NOTE, 0, ".every.Every") + number(17, 1),
    "OneofDescriptorProto": ONEOF,
    "EnumDescriptorProto": CLOSED,
    "EnumReservedRange": range_of(-5, -3),
    "EnumValueDescriptorProto": VALUE,
    "ServiceDescriptorProto": SERVICE,
    "MethodDescriptorProto": METHOD,
}


def rows():
    """What is told of together, and the calls: a name, bytes, a number and a text each."""
    for call in "decode", "clone", "encode":
        yield f"`{call}` of a descriptor record", [(f"{name}::{call}", RECORDS[name], 0, "x") for name in RECORDS]
    for call in "decode", "clone", "encode":
        yield f"`UnknownField::{call}`", [(f"UnknownField::{call}", UNKNOWN, 0, "x")]
    yield "`UnknownField::decode_value`", [("UnknownField::decode_value", UNKNOWN[1:], 0, "x")]
    yield "`UnknownFieldValue::clone`", [("UnknownFieldValue::clone", UNKNOWN, 0, "x")]
    for call in "insert", "clone", "encode":
        what = "of 40 fields" if call == "insert" else "of 5 fields"
        yield f"`UnknownFieldSet::{call}`, {what}", [(f"UnknownFieldSet::{call}", UNKNOWN, 0, "x")]
    for call in "new", "builtin_pool", "decode", "from_file_descriptor_set", "clone", "encode", "encode_to_vec":
        name = call if call == "builtin_pool" else f"DescriptorPool::{call}"
        yield f"`{name}`", [(f"DescriptorPool::{call}", b"", 0, "x")]
    for call in "add_file_descriptor_set", "add_file_descriptor_protos", "add_file_descriptor_proto":
        yield f"`{call}`", [(f"DescriptorPool::{call}", delimited(1, ADDED), 0, "x")]
    for call in "decode_file_descriptor_set", "decode_file_descriptor_proto":
        yield f"`{call}`", [(f"DescriptorPool::{call}", delimited(1, ADDED), 0, "x")]
    for call in "encode", "encode_to_vec":
        yield f"`FileDescriptor::{call}`", [(f"DescriptorPool::file_{call}", b"", 0, "x")]
    yield "calls that answer descriptors and kinds, and their clones", [("Descriptor::all", b"", 0, "x")]
    sorts = "file message field oneof extension enum value service method".split()
    yield "`options` of each descriptor", [("Descriptor::options", NOTE, 1000, sort) for sort in sorts]
    for call in "kind_default_value", "default_value", "field_default_value", "default_value_for_field":
        name = {"kind": "Kind::default_value", "field": "FieldDescriptor::default_value"}.get(call.split("_")[0], f"Value::{call}")
        yield f"`{name}`", [(f"Value::{call}", b"", n, "x") for n in VALUES]
    for call in "extension_default_value", "default_value_for_extension":
        name = "ExtensionDescriptor::default_value" if call[0] == "e" else f"Value::{call}"
        yield f"`{name}`", [(f"Value::{call}", b"", n, "x") for n in (100, 101)]
    texts = [(5, "7"), (9, "text"), (12, "bytes\\001"), (14, "B"), (2, "16")]
    yield "`Value::from_text`", [("Value::from_text", b"", n, text) for n, text in texts]
    yield "`Value::clone`", [("Value::clone", VALUES[n], n, "x") for n in VALUES]
    yield "`MapKey::clone`", [("Value::key_clone", b"", 0, "a_key_that_is_a_text")]
    for call in "decode", "merge", "clone", "encode", "encode_to_vec", "present_numbers", "field_numbers":
        yield f"`DynamicMessage::{call}`", [(f"Message::{call}", BYTES, 0, "x")]
    yield "`DynamicMessage::encode`, to an output with room", [("Message::encode_with_room", BYTES, 0, "x")]
    for call in "decode", "merge", "clone":
        yield f"`DynamicMessage::{call}`, of 151 fields", [(f"Message::{call}", MANY, 0, "x")]
    for call in "extension_numbers", "take_unknown_fields":
        yield f"`DynamicMessage::{call}`", [(f"Message::{call}", BYTES, 0, "x")]
    for call in "fields", "extensions", "present", "take_fields", "take_extensions":
        yield f"`DynamicMessage::{call}`", [(f"List::{call}", BYTES, 0, "x")]
    for call in "get_field", "get_field_by_number", "get_field_by_name":
        yield f"`{call}`", [(f"Access::{call}", b"", n, "x") for n in VALUES]
        yield f"`{call}_mut`", [(f"Access::{call}_mut", VALUES[31] + number(45, 1), n, "x") for n in VALUES if n != 31]
    for form in "", "_by_number", "_by_name":
        for call in "set_field", "try_set_field":
            yield f"`{call}{form}`", [(f"Setting::{call}{form}", VALUES[n], n, "x") for n in VALUES]
    for call in "get_extension", "get_extension_mut", "set_extension":
        yield f"`{call}`", [(f"Extension::{call}", BYTES, n, "x") for n in (100, 101)]
    for call in "relay", "relay_hex", "is_reduction_of", "reduction_fault":
        yield f"`{call}`", [(f"Relay::{call}", BYTES, 0, "x")]
    yield "`relay_with`", [("Relay::relay_with", BYTES, 0, "a_text_that_is_set")]


def commands():
    """What a command is told of as, its words, and how many allocations reading its text makes."""
    yield "`relay - builtin.Plain 508300289601`", ["relay", "-", "builtin.Plain", "508300289601"], 0
    yield "`show - builtin.Plain 508300289601`", ["show", "-", "builtin.Plain", "508300289601"], 0
    for command in "relay", "show":
        yield f"`{command} SET every.Every HEX`", [command, SET.hex(), "every.Every", BYTES.hex()], 0
    yield "`edit - builtin.Plain 508300289601 5 7`", ["edit", "-", "builtin.Plain", "508300289601", "5", "7"], 0
    yield "`edit SET every.Every HEX PATH TEXT`", ["edit", SET.hex(), "every.Every", BYTES.hex(), "32.11.10.2", "a text that is set"], 1
    yield "a command line that is none", ["relay"], 0


def run(words, text, nth, whole):
    """What is printed, the status, and how many allocations were counted where that one is refused."""
    with tempfile.NamedTemporaryFile("r", dir=folder) as counted:
        environment = {"LD_PRELOAD": library, "NTH": str(nth), "COUNTED": counted.name} | ({"WHOLE": "1"} if whole else {})
        made = subprocess.run(words, input=text, capture_output=True, text=True, env=environment, timeout=60)
        return (made.returncode, made.stdout, made.stderr), int(counted.read() or -1)


def fails(what, nth, answer):
    print(f"{what}: allocation {nth} was refused, and the answer was {answer}", file=sys.stderr)
    sys.exit(1)


def refusals(pool, what, words, text, ample, refused, whole, unread=0):
    """How many allocations there are; each was refused in turn, and then one more than there are. So many of them, UNREAD,
    have to be answered as a value that is not read."""
    answer, count = run(words, text, 0, whole)
    if answer != ample and ample is not None:
        fails(what, 0, answer)
    tries = pool.map(lambda nth: (nth, *run(words, text, nth, whole)), range(1, count + 2))
    for nth, given, counted in tries:
        is_refused = nth <= counted
        if is_refused and given == UNREAD and unread > 0:
            unread -= 1
            continue
        if given != answer and not (is_refused and given in refused) or is_refused != (nth <= count):
            fails(what, nth, given)
    if unread:
        fails(what, 0, f"{UNREAD} in {unread} runs too few")
    return count


folder = tempfile.mkdtemp()
same, memory = (0, "same\n", ""), (0, "out of memory\n", "")
UNREAD = (1, "", "refused value\n")
with concurrent.futures.ThreadPoolExecutor(os.cpu_count()) as pool:
    print(f"{'Call':60} {'Made':>5} {'Refused':>8}", flush=True)
    for told, made in rows():
        total = 0
        for name, data, n, word in made:
            text = f"{name} {SET.hex()} {data.hex() or '-'} {n} {word}\n"
            total += refusals(pool, f"{name} {n} {word}", [calls], text, same, [memory], False)
        print(f"{told:60} {len(made):5} {total:8}", flush=True)
    for told, words, unread in commands():
        total = refusals(pool, told, [protorelay, *words], "", None, [(1, "", "refused memory\n")], True, unread)
        print(f"{told:60} {1:5} {total:8}", flush=True)
os.rmdir(folder)
