"""The parser by ctypes: `parse(text)` answers the tree and the faults.

usage: ecma.py LIBRARY [script | module | program | auto] < FILE

LIBRARY is a shared object: `gcc -shared -Wl,--whole-archive libecma_link.a -Wl,--no-whole-archive liblibc_c.a -o libecma.so`.
"""
import ctypes
import json
import sys

GOALS = {'script': 0, 'module': 1, 'program': 2, 'auto': 3}
FLAGS = {
    'decorators': 0x1, 'decorators_before_export': 0x2, 'export_default_from': 0x4, 'import_attributes': 0x8,
    'return_outside_function': 0x10, 'auto_accessors': 0x20, 'explicit_resource_management': 0x40,
    'locations': 0x100, 'ranges': 0x200, 'comments': 0x400, 'tokens': 0x800, 'no_early_errors': 0x1000,
    'plain': 0x2000,
}
TOO_SHORT, OUT_OF_MEMORY = -1, -2
VERSION = 3


class Options(ctypes.Structure):
    _fields_ = [('struct_size', ctypes.c_uint64), ('goal', ctypes.c_uint32), ('limit', ctypes.c_uint32), ('flags', ctypes.c_uint32), ('max_faults', ctypes.c_uint32)]


def load(path):
    """The call of a library."""
    library = ctypes.CDLL(path)
    if library.ecma_version() != VERSION:
        raise ValueError(f'{path} has another version')
    call = library.ecma_parse
    call.restype = ctypes.c_int32
    call.argtypes = [ctypes.c_char_p, ctypes.c_size_t, ctypes.POINTER(Options), ctypes.c_char_p, ctypes.c_size_t,
                     ctypes.POINTER(ctypes.c_size_t)]
    return call


def called(call, text, options):
    """The status of a text in bytes, and its tree and faults as JSON; none below 0."""
    needed = ctypes.c_size_t(1024 + 16 * len(text))
    while True:
        room = needed.value
        out = ctypes.create_string_buffer(room)
        status = call(text, len(text), ctypes.byref(options), out, room, ctypes.byref(needed))
        if status != TOO_SHORT:
            return status, out.raw[:needed.value] if status >= 0 else b''


def parse(call, text, goal='auto', limit=1000, flags=(), max_faults=1000):
    """The status, the tree, which is None where there is none, the faults, and how many more there are."""
    asked = Options(ctypes.sizeof(Options), GOALS[goal], limit, sum(FLAGS[it] for it in flags), max_faults)
    status, written = called(call, text.encode(), asked)
    if status == OUT_OF_MEMORY:
        raise MemoryError
    if status < 0:
        raise ValueError(f'no answer: status {status}')
    found = json.loads(written)
    return status, found['tree'], found['faults'], found.get('more', 0)


def main():
    call = load(sys.argv[1])
    status, tree, faults, more = parse(call, sys.stdin.read(), goal=sys.argv[2] if len(sys.argv) > 2 else 'auto')
    for it in faults:
        print(f"{it['line']}:{it['column']}: {it['severity']} [{it['kind']}]: {it['message']}")
    if more:
        print(f'and {more} more')
    if tree is not None:
        print(json.dumps(tree))
    return status


if __name__ == '__main__':
    sys.exit(main())
