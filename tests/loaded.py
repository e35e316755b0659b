#!/usr/bin/env python3
"""Opens the shared library by ctypes, as a program in another language does, and makes each call once.

The one argument is the library's path. Says nothing and ends with status 0 exactly if every answer is as expected.
tests/loaded.c makes the same calls where no Python can load a library for x86-64.
"""
import ctypes
import sys

XML = b"<a><b><c>text</c></b><b><d/></b></a>"
NAMES = b"a\nb\nc\nd\n"
OUTER, INNER = b"/a[not(b/c)]", b"/a/b/d"
VIEWS = b"/a/b/c\n/a/b/d\n"
NODES, ITEMS, TEXT = 7, 4096, 32768
ITEM, NODE, BYTE = ctypes.c_uint32, ctypes.c_uint16, ctypes.c_uint8
VERSION_1, VERSION_3 = ctypes.c_uint32(1), ctypes.c_uint32(3)



class Role(ctypes.Structure):
    """A role: the views that it may see, bit v for view v."""

    _fields_ = [("views", ctypes.c_uint32)]


library = ctypes.CDLL(sys.argv[1])
wrong = 0


def room(kind, count):
    """Memory for so many elements, all zero."""
    return (kind * count)()


def part(memory, count):
    """The first elements of it."""
    return (memory._type_ * count).from_buffer(memory)


def call(name, *lent):
    """Calls by name: bytes and memory are lent with their length, a number goes as it is, a Python int as a size."""
    passed = []
    for each in lent:
        if isinstance(each, bytes):
            passed += [(BYTE * len(each)).from_buffer_copy(each), ctypes.c_size_t(len(each))]
        elif isinstance(each, ctypes.Array):
            passed += [each, ctypes.c_size_t(len(each))]
        elif isinstance(each, int):
            passed.append(ctypes.c_size_t(each))
        else:
            passed.append(each)
    function = getattr(library, "halyardfig_" + name)
    function.restype = ctypes.c_uint64
    return function(*passed)


def expect(what, answer, expected):
    """Says so where an answer is another one."""
    global wrong
    if answer != expected:
        wrong += 1
        print(f"loaded.py: {what}: {answer!r}, wanted {expected!r}")


def refusal(number, place):
    """A refusal as the C interface answers it."""
    return number << 32 | place


def read(text):
    """A query's items; none where the text is refused."""
    items = room(ITEM, ITEMS)
    answer = call("read", text, VERSION_1, NAMES, items)
    expect(f"read {text!r} is accepted", answer >> 32, 0)
    return part(items, answer if answer >> 32 == 0 else 0)


parent, kind, begin, end = (room(NODE, NODES) for _ in range(4))
expect("read_xml", call("read_xml", XML, NAMES, parent, kind, begin, end), NODES)
expect("parent", list(parent), [0, 0, 1, 2, 3, 1, 5])
expect("kind", list(kind), [0, 2, 3, 4, 1, 3, 5])

outer, inner = read(OUTER), read(INNER)
heights = call("height", outer), call("height", inner)
paths = call("paths", outer), call("paths", inner)
expect("height", heights, (3, 1))
expect("paths", paths, (1, 1))
needed = call("scratch", NODES, heights[0], paths[0], heights[1], paths[1])
expect("scratch", needed, 126)

both = room(ITEM, ITEMS)
size = call("compose", outer, inner, both)
expect("compose is accepted", size >> 32, 0)
expect("compose_lean has fewer items", call("compose_lean", outer, inner, room(ITEM, ITEMS)) < size, True)
both = part(both, size if size >> 32 == 0 else 0)
roles, asked, untouched = (Role * 2)(Role(1), Role(2)), room(ITEM, ITEMS), room(ITEM, 8)
expect("for_role", call("for_role", VIEWS, NAMES, roles, ctypes.c_uint32(1), OUTER, asked), size)
expect("items of for_role", list(asked)[:size], list(both))
expect("no such role", call("for_role", VIEWS, NAMES, roles, ctypes.c_uint32(2), OUTER, untouched), refusal(15, 2))
text = room(BYTE, TEXT)
printed = call("print", both, NAMES, text)
expect("print", bytes(text)[:3], b"/a[")
expect("print with no room", call("print", both, NAMES, b""), refusal(10, printed))
printed = call("print_long", both, NAMES, text)
expect("print_long", bytes(text)[:10], b"/child::a[")
expect("print_long with no room", call("print_long", both, NAMES, b""), refusal(10, printed))

given, marks, followed = (BYTE * NODES)(*[1] * NODES), room(BYTE, NODES), room(BYTE, NODES)
expect("run", call("run", both, parent, kind, given, marks, room(BYTE, needed)), 4)
expect("marks", list(marks), [1, 1, 0, 0, 0, 1, 1])
expect("follow", call("follow", both, parent, kind, given, followed), 4)
expect("marks of follow", list(followed), list(marks))

file = room(BYTE, TEXT)
wrote = call("write_xml", XML, NAMES, parent, kind, begin, end, marks, file)
expect("write_xml", bytes(file)[:wrote], b"<a><b><d></d></b></a>")

kept_parent, kept_kind = room(NODE, 4), room(NODE, 4)
expect("extract", call("extract", parent, kind, marks, kept_parent, kept_kind), 4)
expect("extracted", (list(kept_parent), list(kept_kind)), ([0, 0, 1, 2], [0, 2, 3, 5]))
for numbers, expected in ([0, 1, 5, 6], 1), ([0, 1, 2, 6], 0):
    answer = call("is_cut", parent, kind, kept_parent, kept_kind, (NODE * 4)(*numbers))
    expect(f"is_cut with {numbers}", answer, expected)

expect("another version", call("read", OUTER, VERSION_3, NAMES, untouched), refusal(1, 0))
expect("a name that the list lacks", call("read", b"/e", VERSION_1, NAMES, untouched), refusal(5, 1))
expect("text that ends too early", call("read_xml", b"<a", NAMES, parent, kind, begin, end), refusal(11, 2))
expect("memory of refused calls", (list(untouched), list(kind)), ([0] * 8, [0, 2, 3, 4, 1, 3, 5]))

sys.exit(1 if wrong else 0)
