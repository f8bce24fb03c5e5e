#!/usr/bin/env python3
"""Makes the stored calls that the program call_cases runs, and the output that it must give.

Each case is a call of initialize, load or unload, the bytes that stand before it, and what it must give: number, value, touch,
and the bytes that it changes, worked out by hand from document 01 (with 000's Rust where 01 refers to it) and, for touches and
the order of exports, document 02, asks 2 and 5. No model of the linker stands here. The reason stands in the case's first line.

Run from the root of the repository: python3 tools/call_cases.py [--list]
It writes crates/call_cases/stdin and stdout, the same bytes each time; with --list it prints the reasons.
"""
import struct
import sys

INITIALIZE, LOAD, UNLOAD = 1, 2, 3
MISSING_BYTES = 32896
B = 0x100000  # the window's address, and the module's base in most cases
C = 0x101000  # the base of another module in the window
FAR = 0x500000  # the base of a module outside the window: all that is read there is 0
SERVED = FAR + 0x100  # what a load of another module first reads of it: the table of its named imports

# Header fields; each from CODE on is an offset and a size or count.
MAGIC, NAME, NEXT, PREVIOUS, FIXED, HANDLER = 0x080, 0x084, 0x088, 0x08C, 0x098, 0x0AC
CODE, DATA, MODULE_NAME, SEGMENTS, NAMED, INDEXED, EXPORT_STRINGS, TREE = 0x0B0, 0x0B8, 0x0C0, 0x0C8, 0x0D0, 0x0D8, 0x0E0, 0x0E8
MODULES, EXTERNAL, IMPORT_NAMED, IMPORT_INDEXED, IMPORT_ANONYMOUS, IMPORT_STRINGS = 0x0F0, 0x0F8, 0x100, 0x108, 0x110, 0x118
STATIC_ANONYMOUS, INTERNAL, STATIC_RELOCATIONS = 0x120, 0x128, 0x130


# --- The bytes before a call.

def at(base, parts, magic=b'CRO0'):
    """An image at base: its parts by their offset, each a word, a list of words, or bytes."""
    return {base + MAGIC: magic, **{base + offset: part for offset, part in parts.items()}}


def relocation(tag, kind, flag, addend, mark=0):
    """An entry of a relocation table; the flag is the end mark, or the symbol's segment in the internal table."""
    return [tag, kind | flag << 8 | mark << 16, addend]


def tag(segment, offset):
    return offset << 4 | segment


def module(base, auto, name=b'', segments=(), named=(), indexed=(), size=0x1000):
    return base, size, auto, name, segments, named, indexed


def register(*modules, crs=None, missing=()):
    """The bytes of a register, for the case's `before`: records, names, missing list."""
    names, records = b'', []
    for base, size, auto, name, segments, named, indexed in modules:
        record = [base, size, auto, len(names), len(name), len(segments), len(named), len(indexed), *segments]
        names += name
        for export, address in named:
            record += [len(names), len(export), address]
            names += export
        records += record + list(indexed)
    header = [len(modules), int(crs is not None), crs or 0, 32 + 4 * len(records), len(names), len(missing), 0, 0]
    slots = {514 * k: struct.pack('<H', len(name)) + name for k, name in enumerate(missing)}
    return {'records': {0: header + records}, 'names': {0: names}, 'missing': slots}


# --- The cases.

CASES = []
BUFFERS = 'window', 'records', 'names', 'missing'
ARGUMENTS = 'base', 'size', 'data', 'data_size', 'bss', 'bss_size', 'auto', 'level'


def case(reason, call, number, value, window=None, stands=None, changes=None, lengths=(0x1000, 256, 64, MISSING_BYTES), address=B,
         touch=None, **arguments):
    """A case; `window` and `stands` are the bytes before it, `changes` those that it must write, window ones by their address.
    `touch` is where its first access with a byte outside the window starts."""
    stands = dict({'records': {}, 'names': {}, 'missing': {}}, **(stands or {}))
    stands['window'] = window or {}
    given = dict({'base': B, 'size': 0x1000} if call != UNLOAD else {'base': B}, **arguments)
    CASES.append((reason, call, number, value, touch, stands, changes or {}, lengths, address, [given.get(a, 0) for a in ARGUMENTS]))


def load(reason, number, value, window=None, stands=None, changes=None, **rest):
    case(reason, LOAD, number, value, window, stands, changes, **rest)


def initialize(reason, number, value, window=None, stands=None, changes=None, **rest):
    case(reason, INITIALIZE, number, value, window, stands, changes, **rest)


def unload(reason, number, value, window=None, stands=None, changes=None, **rest):
    case(reason, UNLOAD, number, value, window, stands, changes, **rest)


# The least image: code of 0x10 bytes from 0x138 on. Loading it moves one field, and adds a record without names.
LEAST = at(B, {CODE: [0x138, 0x10]})
MOVED = {B + CODE: B + 0x138}
LEVEL_1 = {B + FIXED: 0x1000, B + STATIC_ANONYMOUS: B + 0x1000, B + INTERNAL: B + 0x1000, B + STATIC_RELOCATIONS: B + 0x1000}
FIRST = {0: [1, 0, 0, 64], 32: [B, 0x1000, 1, 0, 0, 0, 0, 0]}
UNLINKED = {0: [1, 0, 0, 64], 32: [B, 0x1000, 0, 0, 0, 0, 0, 0]}

# - 3 and 4, and the order of the numbers
load('3: a length of 4,095 is no multiple of 4,096', 3, 0, LEAST, lengths=(0xFFF, 256, 64, MISSING_BYTES))
load('3: a length of 0', 3, 0, lengths=(0, 256, 64, MISSING_BYTES))
load('3: an address that is no multiple of 4,096', 3, 0, LEAST, address=B + 4, base=B + 4)
load('3: the end is past 2^32', 3, 0, at(0xFFFFF000, {CODE: [0x138, 0x10]}), lengths=(0x2000, 256, 64, MISSING_BYTES),
     address=0xFFFFF000, base=0xFFFFF000)
load('An end of exactly 2^32 passes; base + fixed size wraps to 0', 0, 0x1000, at(0xFFFFF000, {CODE: [0x138, 0x10]}), None, {
    'window': {0xFFFFF0B0: 0xFFFFF138, 0xFFFFF098: 0x1000},
    'records': {0: [1, 0, 0, 64], 32: [0xFFFFF000, 0x1000, 1, 0, 0, 0, 0, 0]},
}, address=0xFFFFF000, base=0xFFFFF000, auto=1, level=1)
load('4: module count 65', 4, 0, LEAST, {'records': {0: [65, 0, 0, 32]}})
load('4: the missing list is not of 32,896 bytes', 4, 0, LEAST, lengths=(0x1000, 256, 64, MISSING_BYTES - 4))
load('4: records of fewer bytes than the header', 4, 0, LEAST, lengths=(0x1000, 28, 64, MISSING_BYTES))
load('4: an unused name byte is not 0', 4, 0, LEAST, {'names': {63: b'\1'}})
load('4: header word 7 is not 0', 4, 0, LEAST, {'records': {0: [0, 0, 0, 32, 0, 0, 0, 1]}})
load('3 comes before 4', 3, 0, LEAST, {'records': {0: [65]}}, lengths=(0xFFF, 256, 64, MISSING_BYTES))
load('4 comes before 1', 4, 0, {}, {'records': {0: [65]}})

# - 1
load('1: a zero page', 1, 0)
load('1: the magic is CRO1', 1, 0, at(B, {CODE: [0x138, 0x10]}, b'CRO1'))
load('1 comes before 5: no record has room', 1, 0, lengths=(0x1000, 32, 64, MISSING_BYTES))
load('The magic CRS0 is loaded like CRO0', 0, 0, at(B, {CODE: [0x138, 0x10]}, b'CRS0'), None, {'window': MOVED, 'records': FIRST}, auto=1)

# - fixing
load('Level 1: length 0x148 rounds up to 0x1000; the three tables from 0x120 point at the end', 0, 0x1000, LEAST, None,
     {'window': {**MOVED, **LEVEL_1}, 'records': FIRST}, auto=1, level=1)
load('Level 0 gives 0 and writes nothing; auto-link 2 counts as 1', 0, 0, LEAST, None, {'window': MOVED, 'records': FIRST}, auto=2)
load('Level 4 gives 0 and writes nothing; auto-link 0 is stored', 0, 0, LEAST, None, {'window': MOVED, 'records': UNLINKED}, level=4)
load('Level 2^32 - 1 gives 0', 0, 0, LEAST, None, {'window': MOVED, 'records': FIRST}, auto=1, level=0xFFFFFFFF)
load('Level 2 cuts from 0x0F0: the ten tables point at the end, their counts are 0', 0, 0x1000,
     at(B, {CODE: [0x138, 0x10], IMPORT_STRINGS: [0x150, 5], STATIC_RELOCATIONS: [0x160, 2]}), None, {
         'window': {
             **MOVED, B + FIXED: 0x1000, B + MODULES: B + 0x1000, B + EXTERNAL: B + 0x1000, B + IMPORT_NAMED: B + 0x1000,
             B + IMPORT_INDEXED: B + 0x1000, B + IMPORT_ANONYMOUS: B + 0x1000, B + IMPORT_STRINGS: [B + 0x1000, 0],
             B + STATIC_ANONYMOUS: B + 0x1000, B + INTERNAL: B + 0x1000, B + STATIC_RELOCATIONS: [B + 0x1000, 0]},
         'records': FIRST,
     }, auto=1, level=2)
load('Level 3 cuts from 0x0D0; what ends past the code before it, the name, is counted', 0, 0x2000,
     at(B, {CODE: [0x138, 0x10], MODULE_NAME: [0x1000, 4], EXPORT_STRINGS: [0x2000, 9]}), None, {
         'window': {
             **MOVED, B + MODULE_NAME: B + 0x1000, B + FIXED: 0x2000, B + NAMED: B + 0x2000, B + INDEXED: B + 0x2000,
             B + EXPORT_STRINGS: [B + 0x2000, 0], B + TREE: B + 0x2000, B + MODULES: B + 0x2000, B + EXTERNAL: B + 0x2000,
             B + IMPORT_NAMED: B + 0x2000, B + IMPORT_INDEXED: B + 0x2000, B + IMPORT_ANONYMOUS: B + 0x2000,
             B + IMPORT_STRINGS: B + 0x2000, B + STATIC_ANONYMOUS: B + 0x2000, B + INTERNAL: B + 0x2000, B + STATIC_RELOCATIONS: B + 0x2000},
         'records': {0: [1, 0, 0, 64], 32: [B, 0x3000, 1, 0, 0, 0, 0, 0]},
     }, auto=1, level=3, size=0x3000, touch=B + 0x1000)  # the name's first byte
load('Length 0x1001 rounds up to 0x2000 and is at most the given 0x1800', 0, 0x1800, at(B, {CODE: [0x138, 0xEC9]}), None, {
    'window': {**MOVED, B + FIXED: 0x1800, B + STATIC_ANONYMOUS: B + 0x1800, B + INTERNAL: B + 0x1800, B + STATIC_RELOCATIONS: B + 0x1800},
    'records': {0: [1, 0, 0, 64], 32: [B, 0x1800, 1, 0, 0, 0, 0, 0]},
}, auto=1, level=1, size=0x1800)
load('The last table before the barrier counts: 3 tree entries of 8 bytes from 0x1FF0 end at 0x2008', 0, 0x3000,
     at(B, {CODE: [0x138, 0x10], TREE: [0x1FF0, 3]}), None, {
         'window': {**MOVED, B + TREE: B + 0x1FF0, B + FIXED: 0x3000, B + STATIC_ANONYMOUS: B + 0x3000, B + INTERNAL: B + 0x3000,
                    B + STATIC_RELOCATIONS: B + 0x3000},
         'records': {0: [1, 0, 0, 64], 32: [B, 0x4000, 1, 0, 0, 0, 0, 0]},
     }, auto=1, level=1, size=0x4000)
load('The end wraps below the base: less the base it is not below 0, so the fixed size is 0', 0, 0, at(B, {CODE: [0x138, 0xFFF00000]}), None, {
    'window': {**MOVED, B + STATIC_ANONYMOUS: B, B + INTERNAL: B, B + STATIC_RELOCATIONS: B}, 'records': FIRST}, auto=1, level=1)
load('Rounding up past 2^32 wraps to 0', 0, 0, at(0, {CODE: [0x138, 0xFFFFF000]}), None, {
    'records': {0: [1, 0, 0, 64], 32: [0, 0x1000, 1, 0, 0, 0, 0, 0]}}, address=0, base=0, auto=1, level=1)

# - segments: 2, and what passes
DATA_17 = at(B, {SEGMENTS: [0x200, 1], 0x200: [0x300, 17, 2]})
load('2: Data of 17 bytes, 16 lent; the header words are moved, the segment is not', 2, 0, DATA_17, None,
     {'window': {B + SEGMENTS: B + 0x200}}, data=0x180000, data_size=16)
load('Data equal to what is lent passes and takes the lent address', 0, 0, DATA_17, None, {
    'window': {B + SEGMENTS: B + 0x200, B + 0x200: 0x180000},
    'records': {0: [1, 0, 0, 68], 32: [B, 0x1000, 1, 0, 0, 1, 0, 0, 0x180000]},
}, data=0x180000, data_size=17, auto=1)
load('2: Bss of 17 bytes, 16 lent; the Data segment before it has been placed', 2, 0,
     at(B, {SEGMENTS: [0x200, 2], 0x200: [0x300, 16, 2, 0, 17, 3]}), None,
     {'window': {B + SEGMENTS: B + 0x200, B + 0x200: 0x180000}}, data=0x180000, data_size=16, bss=0x190000, bss_size=16)
load('A segment of kind 7 is Bss, takes the lent address and is written back as 3', 0, 0, at(B, {SEGMENTS: [0x200, 1], 0x200: [0x300, 16, 7]}),
     None, {'window': {B + SEGMENTS: B + 0x200, B + 0x200: [0x190000, 16, 3]},
            'records': {0: [1, 0, 0, 68], 32: [B, 0x1000, 1, 0, 0, 1, 0, 0, 0x190000]}}, bss=0x190000, bss_size=16, auto=1)
load('2: a code segment moved above base + size', 2, 0, at(B, {SEGMENTS: [0x200, 1], 0x200: [0x1001, 4, 0]}), None,
     {'window': {B + SEGMENTS: B + 0x200}})
load('A code segment moved to exactly base + size passes', 0, 0, at(B, {SEGMENTS: [0x200, 1], 0x200: [0x1000, 4, 0]}), None, {
    'window': {B + SEGMENTS: B + 0x200, B + 0x200: B + 0x1000},
    'records': {0: [1, 0, 0, 68], 32: [B, 0x1000, 1, 0, 0, 1, 0, 0, B + 0x1000]}}, auto=1)
load('A moved offset wraps: base - 0x10 is not above base + size', 0, 0, at(B, {SEGMENTS: [0x200, 1], 0x200: [0xFFFFFFF0, 4, 1]}), None, {
    'window': {B + SEGMENTS: B + 0x200, B + 0x200: B - 0x10},
    'records': {0: [1, 0, 0, 68], 32: [B, 0x1000, 1, 0, 0, 1, 0, 0, B - 0x10]}}, auto=1)
load('Data and Bss of size 0 are not lent: offsets above 0 move by the base, 0 stays', 0, 0,
     at(B, {SEGMENTS: [0x200, 2], 0x200: [0x300, 0, 2, 0, 0, 3]}), None, {
         'window': {B + SEGMENTS: B + 0x200, B + 0x200: B + 0x300},
         'records': {0: [1, 0, 0, 72], 32: [B, 0x1000, 1, 0, 0, 2, 0, 0, B + 0x300, 0]}}, data=0x180000, bss=0x190000, auto=1)
load('A record keeps 16 segments at most, all a tag can reach; the 17th is moved too', 0, 0,
     at(B, {SEGMENTS: [0x200, 17], 0x200: [0x300, 4, 0] * 17}), None, {
         'window': {B + SEGMENTS: B + 0x200, **{B + 0x200 + 12 * k: B + 0x300 for k in range(17)}},
         'records': {0: [1, 0, 0, 128], 32: [B, 0x1000, 1, 0, 0, 16, 0, 0] + [B + 0x300] * 16}}, auto=1)

# - 5
load('5: 32 bytes of records; the window is as after the external reset, nothing is fixed', 5, 0, LEAST, None, {'window': MOVED},
     lengths=(0x1000, 32, 64, MISSING_BYTES), auto=1, level=1)
load('5: a record of 32 bytes, 28 free', 5, 0, LEAST, None, {'window': MOVED}, lengths=(0x1000, 60, 64, MISSING_BYTES), auto=1, level=1)
load('A record that fills the free bytes passes', 0, 0x1000, LEAST, None, {'window': {**MOVED, **LEVEL_1}, 'records': FIRST},
     lengths=(0x1000, 64, 0, MISSING_BYTES), auto=1, level=1)
NAMED_ABC = at(B, {MODULE_NAME: [0x138, 4], 0x138: b'abc'})
load('5: a name of 3 bytes, 2 free; the register stays', 5, 0, NAMED_ABC, None, {'window': {B + MODULE_NAME: B + 0x138}},
     lengths=(0x1000, 256, 2, MISSING_BYTES), auto=1)
load('A name that fills the free bytes passes', 0, 0, NAMED_ABC, None, {
    'window': {B + MODULE_NAME: B + 0x138}, 'records': {0: [1, 0, 0, 64, 3], 32: [B, 0x1000, 1, 0, 3, 0, 0, 0]}, 'names': {0: b'abc'},
}, lengths=(0x1000, 256, 3, MISSING_BYTES), auto=1)
load('5: 64 modules stand', 5, 0, LEAST, register(*[module(FAR, 0)] * 64), {'window': MOVED}, lengths=(0x1000, 8192, 64, MISSING_BYTES), auto=1)
load('The 64th module is taken in', 0, 0, LEAST, register(*[module(FAR, 0)] * 63), {
    'window': MOVED, 'records': {0: [64, 0, 0, 2080], 2048: [B, 0x1000, 1, 0, 0, 0, 0, 0]}}, lengths=(0x1000, 8192, 64, MISSING_BYTES), auto=1,
     touch=SERVED)
load('A name is the bytes before a zero, at most 512', 0, 0, at(B, {MODULE_NAME: [0x400, 1], 0x400: b'n' * 513}), None, {
    'window': {B + MODULE_NAME: B + 0x400}, 'records': {0: [1, 0, 0, 64, 512], 32: [B, 0x1000, 1, 0, 512, 0, 0, 0]},
    'names': {0: b'n' * 512}}, lengths=(0x1000, 256, 1024, MISSING_BYTES), auto=1)

# - internal relocations; segment 0 is code of 0x20 bytes at 0x800
def internal(entries, segments=(0x800, 0x20, 0)):
    return at(B, {SEGMENTS: [0x200, len(segments) // 3], INTERNAL: [0x360, len(entries) // 3], 0x200: list(segments), 0x360: entries})


INTERNAL_MOVED = {B + SEGMENTS: B + 0x200, B + INTERNAL: B + 0x360, B + 0x200: B + 0x800}
CODE_RECORD = {0: [1, 0, 0, 68], 32: [B, 0x1000, 1, 0, 0, 1, 0, 0, B + 0x800]}
load('Kind 2 writes symbol + addend', 0, 0, internal(relocation(tag(0, 8), 2, 0, 4)), None,
     {'window': {**INTERNAL_MOVED, B + 0x808: B + 0x804}, 'records': CODE_RECORD}, auto=1)
load('Kind 10 writes symbol + addend, which wraps', 0, 0, internal(relocation(tag(0, 8), 10, 0, 0xFFFFFFFC)), None,
     {'window': {**INTERNAL_MOVED, B + 0x808: B + 0x7FC}, 'records': CODE_RECORD}, auto=1)
load('Kind 3 writes symbol + addend - final place: 0x800 + 4 - 0x810', 0, 0, internal(relocation(tag(0, 0x10), 3, 0, 4)), None,
     {'window': {**INTERNAL_MOVED, B + 0x810: 0xFFFFFFF4}, 'records': CODE_RECORD}, auto=1)
load('Kinds 0, 1, 4, 5, 6, 42 and 255 write nothing', 0, 0,
     internal([word for kind in (0, 1, 4, 5, 6, 42, 255) for word in relocation(tag(0, 0), kind, 0, 4)]), None,
     {'window': INTERNAL_MOVED, 'records': CODE_RECORD}, auto=1)
load('Offset 0x20 in a segment of 0x20 gives no address; 0x1F does, and its word ends past the segment', 0, 0,
     internal(relocation(tag(0, 0x20), 2, 0, 0) + relocation(tag(0, 0x1F), 2, 0, 0)), None,
     {'window': {**INTERNAL_MOVED, B + 0x81F: B + 0x800}, 'records': CODE_RECORD}, auto=1)
load('A target or a symbol in a segment that does not exist: nothing is written', 0, 0,
     internal(relocation(tag(1, 0), 2, 0, 0) + relocation(tag(0, 0), 2, 1, 0)), None, {'window': INTERNAL_MOVED, 'records': CODE_RECORD}, auto=1)
load('A relocation into Data is written at the old place, less the final place for kind 3: 0x180000 + 8 - 0x180004', 0, 0,
     internal(relocation(tag(0, 4), 3, 0, 8), (0x900, 0x20, 2)), None, {
         'window': {B + SEGMENTS: B + 0x200, B + INTERNAL: B + 0x360, B + 0x200: 0x180000, B + 0x904: 4},
         'records': {0: [1, 0, 0, 68], 32: [B, 0x1000, 1, 0, 0, 1, 0, 0, 0x180000]}}, data=0x180000, data_size=0x20, auto=1)
load('The old place counts from the last Data segment of size above 0, whichever the tag names', 0, 0,
     internal(relocation(tag(0, 4), 2, 0, 0), (0x900, 0x20, 2, 0xA00, 0x20, 2, 0xB00, 0, 2)), None, {
         'window': {B + SEGMENTS: B + 0x200, B + INTERNAL: B + 0x360, B + 0x200: 0x180000, B + 0x20C: 0x180000, B + 0x218: B + 0xB00,
                    B + 0xA04: 0x180000},
         'records': {0: [1, 0, 0, 76], 32: [B, 0x1000, 1, 0, 0, 3, 0, 0, 0x180000, 0x180000, B + 0xB00]}}, data=0x180000, data_size=0x20, auto=1)
load('A relocated word begun two bytes before the window\'s end stores its lower two', 0, 0,
     internal(relocation(tag(0, 2), 2, 0, 0), (0xFFC, 4, 0)), None, {
         'window': {B + SEGMENTS: B + 0x200, B + INTERNAL: B + 0x360, B + 0x200: B + 0xFFC, B + 0xFFE: b'\xFC\x0F'},
         'records': {0: [1, 0, 0, 68], 32: [B, 0x1000, 1, 0, 0, 1, 0, 0, B + 0xFFC]}}, auto=1, touch=B + 0xFFE)
load('A relocated word begun two bytes below the window writes nothing, though two of its bytes are inside', 0, 0,
     internal(relocation(tag(0, 0), 2, 0, 0), (0xFFFFFFFE, 4, 0)), None, {
         'window': {B + SEGMENTS: B + 0x200, B + INTERNAL: B + 0x360, B + 0x200: B - 2},
         'records': {0: [1, 0, 0, 68], 32: [B, 0x1000, 1, 0, 0, 1, 0, 0, B - 2]}}, auto=1, touch=B - 2)
load('A header that runs out of the window reads 0 there, and its writes are dropped', 0, 0, {B + 0xFFC: b'CRO0'}, None, {
    'records': {0: [1, 0, 0, 64], 32: [B + 0xF7C, 0x1000, 1, 0, 0, 0, 0, 0]}}, base=B + 0xF7C, auto=1, level=1, touch=B + 0xF7C + NAME)

load('An ordinary word write at the window\'s end stores the bytes inside: of 0x138 + base the lower two', 0, 0,
     {B + 0xFCE: b'CRO0', B + 0xFFE: b'\x38\x01'}, None, {
         'window': {B + 0xFFE: b'\x86\x10'}, 'records': {0: [1, 0, 0, 64], 32: [B + 0xF4E, 0x1000, 1, 0, 0, 0, 0, 0]}}, base=B + 0xF4E, auto=1,
     touch=B + 0xF4E + CODE)
load('A name that runs to the window\'s end ends there: what is outside reads as 0', 0, 0, at(B, {MODULE_NAME: [0xFFE, 2], 0xFFE: b'ab'}), None, {
    'window': {B + MODULE_NAME: B + 0xFFE}, 'records': {0: [1, 0, 0, 64, 2], 32: [B, 0x1000, 1, 0, 2, 0, 0, 0]}, 'names': {0: b'ab'}}, auto=1,
     touch=B + 0x1000)

# - external relocations and the handler
def external(handler, entries):
    return at(B, {HANDLER: handler, SEGMENTS: [0x200, 1], EXTERNAL: [0x2C0, len(entries) // 3], 0x200: [0x800, 0x100, 0], 0x2C0: entries})


EXTERNAL_MOVED = {B + SEGMENTS: B + 0x200, B + EXTERNAL: B + 0x2C0, B + 0x200: B + 0x800}
load('Every external word gets the handler + addend, whatever the end marks; marks are cleared', 0, 0,
     external(tag(0, 0x40), relocation(tag(0, 0), 2, 1, 1, 1) + relocation(tag(0, 8), 3, 0, 0, 1) + relocation(tag(0, 16), 5, 0, 0, 1)), None, {
         'window': {**EXTERNAL_MOVED, B + 0x800: B + 0x841, B + 0x808: 0x38, B + 0x2C6: b'\0', B + 0x2D2: b'\0', B + 0x2DE: b'\0'},
         'records': CODE_RECORD}, auto=1)
load('A handler whose tag gives no address is 0 and is not written; marks are cleared', 0, 0,
     external(tag(0, 0x100), relocation(tag(0, 0), 2, 1, 1, 1)), None,
     {'window': {**EXTERNAL_MOVED, B + 0x2C6: b'\0'}, 'records': CODE_RECORD}, auto=1)

# - exports
load('A named export with an unusable tag does not exist; a later one of the same name replaces the address', 0, 0,
     at(B, {SEGMENTS: [0x200, 1], NAMED: [0x240, 4], 0x200: [0x800, 0x100, 0], 0x240: [0x400, tag(0, 0), 0x404, tag(0, 4), 0x408, tag(0, 0x100),
        0x400, tag(0, 8)], 0x400: b'ab', 0x404: b'cd', 0x408: b'ef'}), None, {
         'window': {B + SEGMENTS: B + 0x200, B + NAMED: B + 0x240, B + 0x200: B + 0x800, B + 0x240: B + 0x400, B + 0x248: B + 0x404,
                    B + 0x250: B + 0x408, B + 0x258: B + 0x400},
         'records': {0: [1, 0, 0, 92, 4], 32: [B, 0x1000, 1, 0, 0, 1, 2, 0, B + 0x800, 0, 2, B + 0x808, 2, 2, B + 0x804]},
         'names': {0: b'abcd'}}, auto=1)
load('An unusable tag replaces nothing', 0, 0,
     at(B, {SEGMENTS: [0x200, 1], NAMED: [0x240, 2], 0x200: [0x800, 0x100, 0], 0x240: [0x400, tag(0, 0), 0x400, tag(1, 0)], 0x400: b'ab'}), None, {
         'window': {B + SEGMENTS: B + 0x200, B + NAMED: B + 0x240, B + 0x200: B + 0x800, B + 0x240: B + 0x400, B + 0x248: B + 0x400},
         'records': {0: [1, 0, 0, 80, 2], 32: [B, 0x1000, 1, 0, 0, 1, 1, 0, B + 0x800, 0, 2, B + 0x800]}, 'names': {0: b'ab'}}, auto=1)
load('An indexed export with an unusable tag has address 0', 0, 0,
     at(B, {SEGMENTS: [0x200, 1], INDEXED: [0x260, 2], 0x200: [0x800, 0x100, 0], 0x260: [tag(3, 0), tag(0, 0x20)]}), None, {
         'window': {B + SEGMENTS: B + 0x200, B + INDEXED: B + 0x260, B + 0x200: B + 0x800},
         'records': {0: [1, 0, 0, 76], 32: [B, 0x1000, 1, 0, 0, 1, 0, 2, B + 0x800, 0, B + 0x820]}}, auto=1)
load('The empty name is a name: an export whose name is at 0 is stored with length 0', 0, 0,
     at(B, {SEGMENTS: [0x200, 1], NAMED: [0x240, 1], 0x200: [0x800, 0x100, 0], 0x240: [0, tag(0, 4)]}), None, {
         'window': {B + SEGMENTS: B + 0x200, B + NAMED: B + 0x240, B + 0x200: B + 0x800},
         'records': {0: [1, 0, 0, 80], 32: [B, 0x1000, 1, 0, 0, 1, 1, 0, B + 0x800, 0, 0, B + 0x804]}}, auto=1)

# - the order of exports; a string's pointer moves unless it is 0
def exporting(entries, strings, segment=(0x800, 0x100, 0)):
    """An image with a table of named exports, from (string's offset, tag), and what a load moves of it."""
    image = at(B, {SEGMENTS: [0x200, 1], NAMED: [0x240, len(entries)], 0x200: list(segment),
                   0x240: [word for entry in entries for word in entry], **strings})
    moved = {B + SEGMENTS: B + 0x200, B + NAMED: B + 0x240, B + 0x200: B + segment[0],
             **{B + 0x240 + 8 * k: B + string for k, (string, _) in enumerate(entries) if string}}
    return image, moved


MIXED, MIXED_MOVED = exporting(
    [(0x402, tag(0, 0)), (0x404, tag(0, 4)), (0x408, tag(0, 8)), (0, tag(0, 12)), (0x40C, tag(0, 16)), (0x402, tag(0, 20)), (0x410, tag(0, 0x40))],
    {MODULE_NAME: [0x400, 2], 0x400: b'm\0b\0ab\0\0a\0\0\0\xFF\0\0\0zz'}, (0x138, 0x40, 0))
load('Exports ascend by name, whatever the table\'s order: empty, a, ab, b, FF; the last usable b counts', 0, 0, MIXED, None, {
    'window': {**MIXED_MOVED, B + MODULE_NAME: B + 0x400},
    'records': {0: [1, 0, 0, 0x80, 6, 0, 0, 0], 32: [B, 0x1000, 1, 0, 1, 1, 5, 0, B + 0x138, 1, 0, B + 0x144, 1, 1, B + 0x140, 2, 2, B + 0x13C,
                                                     4, 1, B + 0x14C, 5, 1, B + 0x148]},
    'names': {0: b'maabb\xFF'}}, auto=1)
THRICE, THRICE_MOVED = exporting([(0x400, tag(0, 0)), (0x404, tag(0, 4)), (0x400, tag(0, 0x100)), (0x400, tag(0, 8))], {0x400: b'n\0\0\0m'})
load('A name three times, the middle one unusable: the third counts, and stands after a name that comes later in the table', 0, 0, THRICE, None, {
    'window': THRICE_MOVED, 'records': {0: [1, 0, 0, 92, 2], 32: [B, 0x1000, 1, 0, 0, 1, 2, 0, B + 0x800, 0, 1, B + 0x804, 1, 1, B + 0x808]},
    'names': {0: b'mn'}}, auto=1)
THREE, THREE_MOVED = exporting([(0x408, tag(0, 0)), (0x404, tag(0, 4)), (0x400, tag(0, 8)), (0x404, tag(0, 12))], {0x400: b'a\0\0\0bb\0\0c'})
load('Three names in four entries fill the records and the names', 0, 0, THREE, None, {
    'window': THREE_MOVED,
    'records': {0: [1, 0, 0, 104, 4], 32: [B, 0x1000, 1, 0, 0, 1, 3, 0, B + 0x800, 0, 1, B + 0x808, 1, 2, B + 0x80C, 3, 1, B + 0x800]},
    'names': {0: b'abbc'}}, lengths=(0x1000, 104, 4, MISSING_BYTES), auto=1)
load('5: four bytes of the records too few for the same; the register stays, nothing is fixed', 5, 0, THREE, None, {'window': THREE_MOVED},
     lengths=(0x1000, 100, 4, MISSING_BYTES), auto=1, level=1)
load('5: a byte of the names too few for the same', 5, 0, THREE, None, {'window': THREE_MOVED},
     lengths=(0x1000, 104, 3, MISSING_BYTES), auto=1, level=1)
DESCENDING = register(module(FAR, 1, b'm', (), ((b'b', 4), (b'a', 8))))
load('4: the named exports of a record do not ascend', 4, 0, LEAST, DESCENDING, auto=1)
initialize('4: the same', 4, 0, at(B, {CODE: [0x138, 0x10]}, b'CRS0'), DESCENDING)
unload('4: the same, for an unknown base too', 4, 0, None, DESCENDING)

# - named imports: one, of the name `foo`, whose batch begins at 0x2C0; the handler is at 0x840
def importing(entries, parts=None, base=B):
    return at(base, {HANDLER: tag(0, 0x40), SEGMENTS: [0x200, 1], EXTERNAL: [0x2C0, len(entries) // 3], IMPORT_NAMED: [0x380, 1],
                     0x200: [0x800, 0x100, 0], 0x2C0: entries, 0x380: [0x400, 0x2C0], 0x400: b'foo', **(parts or {})})


ONE = relocation(tag(0, 0), 2, 1, 4)
IMPORT_MOVED = {**EXTERNAL_MOVED, B + IMPORT_NAMED: B + 0x380, B + 0x380: [B + 0x400, B + 0x2C0]}
FOO = module(FAR, 1, b'', (), ((b'foo', FAR + 0x10),))
AFTER_FOO = {0: [2, 0, 0, 112, 3], 76: [B, 0x1000, 1, 3, 0, 1, 0, 0, B + 0x800]}
load('A named import gets the address of a standing auto-linked module, + addend, and its batch is marked', 0, 0, importing(ONE), register(FOO), {
    'window': {**IMPORT_MOVED, B + 0x800: FAR + 0x14, B + 0x2C6: b'\1'}, 'records': AFTER_FOO}, auto=1, touch=SERVED)
load('A name that nothing provides keeps the handler and goes to the missing list', 0, 0, importing(ONE), None, {
    'window': {**IMPORT_MOVED, B + 0x800: B + 0x844},
    'records': {0: [1, 0, 0, 68, 0, 1], 32: [B, 0x1000, 1, 0, 0, 1, 0, 0, B + 0x800]}, 'missing': {0: b'\3\0foo'}}, auto=1)
load('An exporter with auto-link 0 is not asked', 0, 0, importing(ONE), register(module(FAR, 0, b'', (), ((b'foo', FAR + 0x10),))), {
    'window': {**IMPORT_MOVED, B + 0x800: B + 0x844},
    'records': {0: [2, 0, 0, 112, 3, 1], 76: [B, 0x1000, 1, 3, 0, 1, 0, 0, B + 0x800]}, 'missing': {0: b'\3\0foo'}}, auto=1, touch=SERVED)
load('Of two exporters the one loaded first provides', 0, 0, importing(ONE),
     register(FOO, module(FAR, 1, b'', (), ((b'foo', FAR + 0x20),))), {
         'window': {**IMPORT_MOVED, B + 0x800: FAR + 0x14, B + 0x2C6: b'\1'},
         'records': {0: [3, 0, 0, 156, 6], 120: [B, 0x1000, 1, 6, 0, 1, 0, 0, B + 0x800]}}, auto=1, touch=SERVED)
OWN = importing(ONE, {NAMED: [0x240, 1], 0x240: [0x400, tag(0, 0x20)]})
OWN_MOVED = {**IMPORT_MOVED, B + NAMED: B + 0x240, B + 0x240: B + 0x400}
load('Named lookup asks the module itself too', 0, 0, OWN, None, {
    'window': {**OWN_MOVED, B + 0x800: B + 0x824, B + 0x2C6: b'\1'},
    'records': {0: [1, 0, 0, 80, 3], 32: [B, 0x1000, 1, 0, 0, 1, 1, 0, B + 0x800, 0, 3, B + 0x820]}, 'names': {0: b'foo'}}, auto=1)
load('A module with auto-link 0 does not find its own export', 0, 0, OWN, None, {
    'window': {**OWN_MOVED, B + 0x800: B + 0x844},
    'records': {0: [1, 0, 0, 80, 3, 1], 32: [B, 0x1000, 0, 0, 0, 1, 1, 0, B + 0x800, 0, 3, B + 0x820]}, 'names': {0: b'foo'},
    'missing': {0: b'\3\0foo'}})
load('A batch is walked up to its end mark: kinds 2, 3 and 10 are written, 5 and an unusable tag are not', 0, 0,
     importing(relocation(tag(0, 0), 2, 0, 4) + relocation(tag(0, 8), 3, 0, 0) + relocation(tag(0, 12), 5, 0, 0) + relocation(tag(1, 0), 2, 0, 0)
               + relocation(tag(0, 16), 10, 1, 1) + relocation(tag(0, 20), 2, 1, 0), {HANDLER: tag(1, 0)}), register(FOO), {
         'window': {**IMPORT_MOVED, B + 0x800: FAR + 0x14, B + 0x808: FAR + 0x10 - B - 0x808, B + 0x810: FAR + 0x11, B + 0x2C6: b'\1'},
         'records': AFTER_FOO}, auto=1, touch=SERVED)
load('A batch without an end mark ends after 0x1001 entries; those outside the window read as 0, of kind 0', 0, 0,
     importing(ONE, {EXTERNAL: [0xF00, 1], 0x380: [0x400, 0xF00], 0xF00: relocation(tag(0, 0), 2, 0, 4)}), register(FOO), {
         'window': {**IMPORT_MOVED, B + EXTERNAL: B + 0xF00, B + 0x384: B + 0xF00, B + 0x800: FAR + 0x14, B + 0xF06: b'\1'},
         'records': AFTER_FOO}, auto=1, touch=B + 0x1000)  # the kind of the entry at 0xFFC
# A batch of an import of the module's own export, in a window of 14 pages or 13; entry k is at batch + 12 (k - 1).
def long_batch(batch, entries=None):
    return at(B, {SEGMENTS: [0x200, 1], NAMED: [0x240, 1], IMPORT_NAMED: [0x380, 1], 0x200: [0x800, 0x100, 0], 0x240: [0x400, tag(0, 0x20)],
                  0x380: [0x400, batch], 0x400: b'foo', **(entries or {})})


def from_4096(*ends):
    """Entries 4,096 to 4,098 of a batch at 0x1000, by their end marks; each has a word of its own."""
    return {0x1000 + 12 * (4095 + k): relocation(tag(0, 4 * k), 2, end, k) for k, end in enumerate(ends)}


def long_batch_done(batch, applied=0):
    """What the load changes; of the entries with a word `applied` are reached."""
    return {'window': {B + SEGMENTS: B + 0x200, B + NAMED: B + 0x240, B + IMPORT_NAMED: B + 0x380, B + 0x200: B + 0x800, B + 0x240: B + 0x400,
                       B + 0x380: [B + 0x400, B + batch], B + batch + 6: b'\1',
                       **{B + 0x800 + 4 * k: B + 0x820 + k for k in range(applied)}},
            'records': {0: [1, 0, 0, 80, 3], 32: [B, 0x1000, 1, 0, 0, 1, 1, 0, B + 0x800, 0, 3, B + 0x820]}, 'names': {0: b'foo'}}


PAGES_13, PAGES_14 = (0xD000, 256, 64, MISSING_BYTES), (0xE000, 256, 64, MISSING_BYTES)
load('A batch whose 4,096th entry has the end mark ends there: the 4,097th is not applied', 0, 0,
     long_batch(0x1000, from_4096(1, 1, 1)), None, long_batch_done(0x1000, 1), lengths=PAGES_14, auto=1)
load('A batch whose 4,097th entry has the end mark ends there: the 4,098th is not applied', 0, 0,
     long_batch(0x1000, from_4096(0, 1, 1)), None, long_batch_done(0x1000, 2), lengths=PAGES_14, auto=1)
load('A batch without an end mark ends after the 4,097th entry too: the 4,098th is not applied', 0, 0,
     long_batch(0x1000, from_4096(0, 0, 0)), None, long_batch_done(0x1000, 2), lengths=PAGES_14, auto=1)
load('The 4,097th entry of a batch without an end mark is read: at the window\'s end it is a touch', 0, 0,
     long_batch(0x1000), None, long_batch_done(0x1000), lengths=PAGES_13, auto=1, touch=B + 0xD000)
load('A 4,098th entry is not read: at the window\'s end it is none', 0, 0,
     long_batch(0xFF4), None, long_batch_done(0xFF4), lengths=PAGES_13, auto=1)
load('An import whose batch is 0 is passed over, and is not missing', 0, 0, importing(ONE, {0x380: [0x400, 0]}), None, {
    'window': {**EXTERNAL_MOVED, B + IMPORT_NAMED: B + 0x380, B + 0x380: B + 0x400, B + 0x800: B + 0x844}, 'records': CODE_RECORD}, auto=1)
load('64 missing names stand: another is not kept', 0, 0, importing(ONE), register(missing=[b'm'] * 64), {
    'window': {**IMPORT_MOVED, B + 0x800: B + 0x844},
    'records': {0: [1, 0, 0, 68, 0, 64], 32: [B, 0x1000, 1, 0, 0, 1, 0, 0, B + 0x800]}}, auto=1)
load('The 64th missing name is kept in the last slot', 0, 0, importing(ONE), register(missing=[b'm'] * 63), {
    'window': {**IMPORT_MOVED, B + 0x800: B + 0x844},
    'records': {0: [1, 0, 0, 68, 0, 64], 32: [B, 0x1000, 1, 0, 0, 1, 0, 0, B + 0x800]}, 'missing': {32382: b'\3\0foo'}}, auto=1)

# - imports by module entries: the entry at 0x280 names `dll`, an indexed import at 0x320 and an anonymous one at 0x340
def by_module(index, anonymous, base=B):
    return at(base, {
        HANDLER: tag(0, 0x40), SEGMENTS: [0x200, 1], MODULES: [0x280, 1], EXTERNAL: [0x2C0, 2], IMPORT_INDEXED: [0x320, 1],
        IMPORT_ANONYMOUS: [0x340, 1], 0x200: [0x800, 0x100, 0], 0x280: [0x400, 0x320, 1, 0x340, 1],
        0x2C0: relocation(tag(0, 0), 2, 1, 0) + relocation(tag(0, 4), 2, 1, 0),
        0x320: [index, 0x2C0], 0x340: [anonymous, 0x2CC], 0x400: b'dll'})


BY_MODULE_MOVED = {**EXTERNAL_MOVED, B + MODULES: B + 0x280, B + IMPORT_INDEXED: B + 0x320, B + IMPORT_ANONYMOUS: B + 0x340,
                   B + 0x280: [B + 0x400, B + 0x320, 1, B + 0x340], B + 0x324: B + 0x2C0, B + 0x344: B + 0x2CC}
DLL = module(FAR, 0, b'dll', (FAR + 0x100, FAR + 0x200), (), (FAR + 0x30, FAR + 0x40))
AFTER_DLL = {0: [2, 0, 0, 116, 3], 80: [B, 0x1000, 1, 3, 0, 1, 0, 0, B + 0x800]}
load('A module entry imports by index, and a segment\'s address + offset, from a module of that name, auto-linked or not', 0, 0,
     by_module(1, tag(1, 0x1234)), register(DLL), {
         'window': {**BY_MODULE_MOVED, B + 0x800: FAR + 0x40, B + 0x804: FAR + 0x1434, B + 0x2C6: b'\1', B + 0x2D2: b'\1'},
         'records': AFTER_DLL}, auto=1, touch=SERVED)
load('An index at the count, or a segment that does not exist: the batches keep the handler', 0, 0, by_module(2, tag(2, 0)), register(DLL), {
    'window': {**BY_MODULE_MOVED, B + 0x800: B + 0x840, B + 0x804: B + 0x840}, 'records': AFTER_DLL}, auto=1, touch=SERVED)
load('A module entry whose name no module has is passed over; it is not missing', 0, 0, by_module(0, tag(0, 0)), None, {
    'window': {**BY_MODULE_MOVED, B + 0x800: B + 0x840, B + 0x804: B + 0x840}, 'records': CODE_RECORD}, auto=1)

# - what a new module gives to those that stand: another at C, loaded before, whose image holds addresses
TWO_PAGES = (0x2000, 256, 64, MISSING_BYTES)
WAITING = {C + SEGMENTS: [C + 0x200, 1], C + EXTERNAL: [C + 0x2C0, 1], C + IMPORT_NAMED: [C + 0x300, 1], C + 0x200: [C + 0x800, 0x100, 0],
           C + 0x2C0: ONE, C + 0x300: [C + 0x400, C + 0x2C0], C + 0x400: b'foo'}
EXPORTING = at(B, {SEGMENTS: [0x200, 1], NAMED: [0x240, 1], 0x200: [0x800, 0x100, 0], 0x240: [0x400, tag(0, 0x20)], 0x400: b'foo'})
EXPORTING_MOVED = {B + SEGMENTS: B + 0x200, B + NAMED: B + 0x240, B + 0x200: B + 0x800, B + 0x240: B + 0x400}
load('A new module\'s exports reach a module that waits, itself not auto-linked', 0, 0, {**EXPORTING, **WAITING}, register(module(C, 0)), {
    'window': {**EXPORTING_MOVED, C + 0x800: B + 0x824, C + 0x2C6: b'\1'},
    'records': {0: [2, 0, 0, 112, 3], 64: [B, 0x1000, 1, 0, 0, 1, 1, 0, B + 0x800, 0, 3, B + 0x820]}, 'names': {0: b'foo'},
}, lengths=TWO_PAGES, auto=1)
load('The exports of a new module with auto-link 0 reach others too', 0, 0, {**EXPORTING, **WAITING}, register(module(C, 1)), {
    'window': {**EXPORTING_MOVED, C + 0x800: B + 0x824, C + 0x2C6: b'\1'},
    'records': {0: [2, 0, 0, 112, 3], 64: [B, 0x1000, 0, 0, 0, 1, 1, 0, B + 0x800, 0, 3, B + 0x820]}, 'names': {0: b'foo'}}, lengths=TWO_PAGES)
load('A batch that is resolved is not touched again', 0, 0, {**EXPORTING, **WAITING, C + 0x2C0: relocation(tag(0, 0), 2, 1, 4, 1)},
     register(module(C, 1)), {
         'window': EXPORTING_MOVED,
         'records': {0: [2, 0, 0, 112, 3], 64: [B, 0x1000, 1, 0, 0, 1, 1, 0, B + 0x800, 0, 3, B + 0x820]}, 'names': {0: b'foo'},
     }, lengths=TWO_PAGES, auto=1)
load('A module entry of a standing module that names the new one is served: by index, and a segment\'s address', 0, 0, {
    **at(B, {MODULE_NAME: [0x400, 4], SEGMENTS: [0x200, 1], INDEXED: [0x260, 1], 0x200: [0x800, 0x100, 0], 0x260: [tag(0, 0x30)], 0x400: b'dll'}),
    C + SEGMENTS: [C + 0x200, 1], C + MODULES: [C + 0x280, 1], C + 0x200: [C + 0x800, 0x100, 0],
    C + 0x280: [C + 0x400, C + 0x320, 1, C + 0x340, 1], C + 0x2C0: relocation(tag(0, 0), 2, 1, 0) + relocation(tag(0, 4), 2, 1, 0),
    C + 0x320: [0, C + 0x2C0], C + 0x340: [tag(0, 0x50), C + 0x2CC], C + 0x400: b'dll'}, register(module(C, 0)), {
        'window': {B + MODULE_NAME: B + 0x400, B + SEGMENTS: B + 0x200, B + INDEXED: B + 0x260, B + 0x200: B + 0x800,
                   C + 0x800: B + 0x830, C + 0x804: B + 0x850, C + 0x2C6: b'\1', C + 0x2D2: b'\1'},
        'records': {0: [2, 0, 0, 104, 3], 64: [B, 0x1000, 1, 0, 3, 1, 0, 1, B + 0x800, B + 0x830]}, 'names': {0: b'dll'},
    }, lengths=TWO_PAGES, auto=1)

# - the lists; the CRS is at C
CRS = register(module(C, 1), crs=C)
SECOND = {0: [2, 1, C, 96], 64: [B, 0x1000, 1, 0, 0, 0, 0, 0]}
load('The first auto-linked module becomes head (the CRS\'s next) and its own tail', 0, 0, {**LEAST, B + NEXT: 7}, CRS, {
    'window': {**MOVED, C + NEXT: B, B + NEXT: 0, B + PREVIOUS: B}, 'records': SECOND}, lengths=TWO_PAGES, auto=1)
load('The first module with auto-link 0 becomes head of the other list (the CRS\'s previous)', 0, 0, LEAST, CRS, {
    'window': {**MOVED, C + PREVIOUS: B, B + PREVIOUS: B}, 'records': {**SECOND, 64: [B, 0x1000, 0, 0, 0, 0, 0, 0]}}, lengths=TWO_PAGES)
load('A second one becomes the tail: the old tail\'s next, its own previous, the head\'s previous', 0, 0,
     {**LEAST, C + NEXT: C + 0x800, C + 0x800 + PREVIOUS: C + 0x900}, CRS, {
         'window': {**MOVED, C + 0x900 + NEXT: B, B + PREVIOUS: C + 0x900, C + 0x800 + PREVIOUS: B}, 'records': SECOND}, lengths=TWO_PAGES, auto=1)
load('5 leaves the lists alone', 5, 0, LEAST, CRS, {'window': MOVED}, lengths=(0x2000, 64, 64, MISSING_BYTES), auto=1)

# - initialize
initialize('The CRS: header offsets move, next and previous become 0, a record that is auto-linked, the CRS known', 0, 0,
           at(B, {NAME: 0x500, NEXT: [7, 8], CODE: [0x138, 0x10], MODULE_NAME: [0x400, 4], 0x400: b'crs'}, b'CRS0'), None, {
               'window': {B + NAME: B + 0x500, B + NEXT: [0, 0], B + CODE: B + 0x138, B + MODULE_NAME: B + 0x400},
               'records': {0: [1, 1, B, 64, 3], 32: [B, 0x1000, 1, 0, 3, 0, 0, 0]}, 'names': {0: b'crs'}})
initialize('Segments are neither changed nor checked, and are addresses', 0, 0,
           at(B, {SEGMENTS: [0x200, 2], 0x200: [0x400000, 0x99999, 2, 0x7FFFFF, 5, 9]}, b'CRS0'), None, {
               'window': {B + SEGMENTS: B + 0x200},
               'records': {0: [1, 1, B, 72], 32: [B, 0x1000, 1, 0, 0, 2, 0, 0, 0x400000, 0x7FFFFF]}})
initialize('An internal relocation into Data is written at the offset from address 0', 0, 0,
           at(0x1000, {SEGMENTS: [0x200, 1], INTERNAL: [0x360, 1], 0x200: [0x400000, 0x100, 2], 0x360: relocation(tag(0, 0x24), 3, 0, 0)}, b'CRS0'),
           None, {'window': {0x1000 + SEGMENTS: 0x1200, 0x1000 + INTERNAL: 0x1360, 0x24: 0xFFFFFFDC},
                  'records': {0: [1, 1, 0x1000, 68], 32: [0x1000, 0x1000, 1, 0, 0, 1, 0, 0, 0x400000]}},
           address=0, base=0x1000, lengths=TWO_PAGES)
initialize('Run twice, it adds a second record; the offsets move once more', 0, 0, at(B, {CODE: [B + 0x138, 0x10]}, b'CRS0'),
           register(module(B, 1), crs=B), {
               'window': {B + CODE: 2 * B + 0x138}, 'records': {0: [2, 1, B, 96], 64: [B, 0x1000, 1, 0, 0, 0, 0, 0]}})
initialize('1: a zero page', 1, 0)
initialize('4: CRS known is 2', 4, 0, at(B, {}, b'CRS0'), {'records': {0: [0, 2]}})
initialize('5: next and previous are not cleared, the CRS stays unknown', 5, 0, at(B, {NEXT: [7, 8], CODE: [0x138, 0x10]}, b'CRS0'), None,
           {'window': MOVED}, lengths=(0x1000, 32, 64, MISSING_BYTES))

# - unload
LOADED = at(B, {FIXED: 0x1000, CODE: [B + 0x138, 0x10], STATIC_ANONYMOUS: [B + 0x1000, 0]})
LEFT = {B + FIXED: 0, B + CODE: 0x138, B + STATIC_ANONYMOUS: 0x1000}
unload('An unknown base changes nothing; a 0 in word 3 stays', 0, 0, LOADED)
unload('3 is tested first, for an unknown base too', 3, 0, lengths=(0x1001, 256, 64, MISSING_BYTES))
unload('4 is tested for an unknown base too', 4, 0, LOADED, {'records': {0: [0, 0, 5]}})
unload('The module\'s offsets and fixed size go back, its record leaves, 32 is written for the bytes used', 0, 1, LOADED, register(module(B, 1)),
       {'window': LEFT, 'records': {0: [0, 0, 0, 32], 32: [0, 0, 0]}})
unload('Of two records with that base the first leaves; the names after it move down', 0, 1, LOADED,
       register(module(B, 1, b'one'), module(B, 0, b'second')), {
           'window': LEFT, 'records': {0: [1, 0, 0, 64, 6], 32: [B, 0x1000, 0, 0, 6, 0, 0, 0], 64: [0] * 8}, 'names': {0: b'second\0\0\0'}})
unload('The records after it keep the order of their exports; offsets and names move down', 0, 1, LOADED,
       register(module(B, 1, b'one', (), ((b'x', 4), (b'y', 8))), module(FAR, 0, b'two', (), ((b'', 12), (b'a', 16), (b'ab', 20)))), {
           'window': LEFT,
           'records': {0: [1, 0, 0, 100, 6], 32: [FAR, 0x1000, 0, 0, 3, 0, 3, 0, 3, 0, 12, 3, 1, 16, 4, 2, 20], 100: [0] * 14},
           'names': {0: b'twoaab\0\0\0\0\0'}})
unload('A Data segment leaves as lent address - base, Bss as 0, kind 7 as 3, an offset of 0 as 0', 0, 1,
       at(B, {SEGMENTS: [B + 0x200, 4], 0x200: [0x180000, 4, 2, 0x190000, 4, 7, 0, 4, 0, B + 0x800, 4, 1]}), register(module(B, 1)), {
           'window': {B + SEGMENTS: 0x200, B + 0x200: 0x80000, B + 0x20C: [0, 4, 3], B + 0x224: 0x800},
           'records': {0: [0, 0, 0, 32], 32: [0, 0, 0]}})
RESOLVED = {**WAITING, C + HANDLER: tag(0, 0x40), C + 0x2C0: relocation(tag(0, 0), 2, 1, 4, 1), C + 0x800: B + 0x824}
FOO_AT_B = module(B, 1, b'', (), ((b'foo', B + 0x820),))
unload('The batch of an auto-linked importer goes back to its handler, and its mark is cleared', 0, 1, {**LOADED, **RESOLVED},
       register(FOO_AT_B, module(C, 1)), {
           'window': {**LEFT, C + 0x800: C + 0x844, C + 0x2C6: b'\0'},
           'records': {0: [1, 0, 0, 64, 0], 32: [C, 0x1000, 1, 0, 0, 0, 0, 0], 64: [0] * 11}, 'names': {0: b'\0\0\0'}}, lengths=TWO_PAGES)
unload('An importer that is not auto-linked keeps what it has', 0, 1, {**LOADED, **RESOLVED}, register(FOO_AT_B, module(C, 0)), {
    'window': LEFT, 'records': {0: [1, 0, 0, 64, 0], 32: [C, 0x1000, 0, 0, 0, 0, 0, 0], 64: [0] * 11}, 'names': {0: b'\0\0\0'}}, lengths=TWO_PAGES)
unload('A handler of 0 is written by the resets', 0, 1, {**LOADED, **RESOLVED, C + HANDLER: tag(9, 0)}, register(FOO_AT_B, module(C, 1)), {
    'window': {**LEFT, C + 0x800: 4, C + 0x2C6: b'\0'},
    'records': {0: [1, 0, 0, 64, 0], 32: [C, 0x1000, 1, 0, 0, 0, 0, 0], 64: [0] * 11}, 'names': {0: b'\0\0\0'}}, lengths=TWO_PAGES)
unload('A batch that is not resolved is left as it is', 0, 1, {**LOADED, **RESOLVED, C + 0x2C0: ONE}, register(FOO_AT_B, module(C, 1)), {
    'window': LEFT, 'records': {0: [1, 0, 0, 64, 0], 32: [C, 0x1000, 1, 0, 0, 0, 0, 0], 64: [0] * 11}, 'names': {0: b'\0\0\0'}}, lengths=TWO_PAGES)
unload('The head leaves its list: the next one heads it and keeps the tail', 0, 1,
       {**LOADED, C + NEXT: B, B + NEXT: [C + 0x800, C + 0x900], C + 0x800 + NEXT: [C + 0x900, B]}, register(module(C, 1), module(B, 1), crs=C), {
           'window': {**LEFT, C + NEXT: C + 0x800, B + NEXT: [0, 0], C + 0x800 + PREVIOUS: C + 0x900},
           'records': {0: [1, 1, C, 64], 64: [0, 0, 0]}}, lengths=TWO_PAGES)
unload('The tail leaves its list: the one before has no next, and the head of either list that had it as tail gets that one', 0, 1,
       {**LOADED, C + NEXT: C + 0x800, B + PREVIOUS: C + 0x900, C + 0x900 + NEXT: [B, C + 0x800], C + 0x800 + NEXT: [C + 0x900, B]},
       register(module(C, 1), module(B, 1), crs=C), {
           'window': {**LEFT, B + PREVIOUS: 0, C + 0x900 + NEXT: 0, C + 0x800 + PREVIOUS: C + 0x900},
           'records': {0: [1, 1, C, 64], 64: [0, 0, 0]}}, lengths=TWO_PAGES)

# - no touches: document 01's session, and an unload after it
unload('Document 01\'s session, call 1: an unknown base is not accessed', 0, 0, LEAST)
load('Document 01\'s session, call 2: a magic that is none, but inside', 1, 0, LEAST, base=B + 0x800, auto=1, level=1)
load('Document 01\'s session, call 3: all of the module lies inside', 0, 0x1000, LEAST, None,
     {'window': {**MOVED, **LEVEL_1}, 'records': FIRST}, auto=1, level=1)
unload('After document 01\'s session: the dropped tables, which point at the window\'s end, are empty and not accessed', 0, 1,
       {**LEAST, B + CODE: [B + 0x138, 0x10], **LEVEL_1}, register(module(B, 1)), {
           'window': {B + CODE: 0x138, B + FIXED: 0, B + STATIC_ANONYMOUS: 0x1000, B + INTERNAL: 0x1000, B + STATIC_RELOCATIONS: 0x1000},
           'records': {0: [0, 0, 0, 32], 32: [0, 0, 0]}})

# - touches with a refusal
load('1: the magic alone is accessed, here outside', 1, 0, base=B + 0xFFE, auto=1, touch=B + 0x107E)
load('1: the magic is one word, and a touch if half of it is outside, with its start', 1, 0, base=B + 0xF7E, auto=1, touch=B + 0xFFE)
load('2: Data above what is lent is no touch, and the lent address is not accessed', 2, 0,
     at(B, {SEGMENTS: [0x200, 1], 0x200: [0, 0x11, 2]}), None, {'window': {B + SEGMENTS: B + 0x200}}, data=0x200000, data_size=0x10, auto=1)
load('2: a segment that is read before the bad one, outside, is a touch', 2, 0, at(B, {SEGMENTS: [0xFFFFFFF4, 2], 0: 0x1001}), None,
     {'window': {B + SEGMENTS: B - 12}}, auto=1, touch=B - 12)
load('3: no access is made, wherever the base is', 3, 0, base=FAR, lengths=(0xFFF, 256, 64, MISSING_BYTES))
load('4: no access is made, wherever the base is', 4, 0, None, {'records': {0: [65]}}, base=FAR)
CUT_SEGMENTS = at(B, {SEGMENTS: [0xFF0, 2]}, b'CRS0')
initialize('It looks the segments up: the second one\'s size lies outside', 0, 0, CUT_SEGMENTS, None, {
    'window': {B + SEGMENTS: B + 0xFF0}, 'records': {0: [1, 1, B, 72], 32: [B, 0x1000, 1, 0, 0, 2, 0, 0, 0, 0]}}, touch=B + 0x1000)
initialize('5: the lookups of the rebase count', 5, 0, CUT_SEGMENTS, None, {'window': {B + SEGMENTS: B + 0xFF0}},
           lengths=(0x1000, 32, 64, MISSING_BYTES), touch=B + 0x1000)
FAR_NAME = at(B, {NAMED: [0x210, 1], 0x210: [0x2000, 0]})
FAR_NAME_MOVED = {B + NAMED: B + 0x210, B + 0x210: B + 0x2000}
load('5: the accesses of the record do not count, here of an export\'s name', 5, 0, FAR_NAME, None, {'window': FAR_NAME_MOVED},
     lengths=(0x1000, 32, 64, MISSING_BYTES), auto=1)
load('With room they count: the name comes before the tag, which is not usable', 0, 0, FAR_NAME, None,
     {'window': FAR_NAME_MOVED, 'records': FIRST}, auto=1, touch=B + 0x2000)

# - touches of a load or an unload that is done
load('A batch entry\'s tag is read first: a batch at 0xFF1 without an end mark goes on at 0xFFD', 0, 0, at(B, {
    MODULE_NAME: 0x300, SEGMENTS: [0x220, 1], NAMED: [0x210, 1], IMPORT_NAMED: [0x200, 1], 0x200: [0x300, 0xFF1], 0x210: [0x300, 0],
    0x220: [0x400, 0x10, 0], 0x300: b'x'}), None, {
        'window': {B + MODULE_NAME: B + 0x300, B + SEGMENTS: B + 0x220, B + NAMED: B + 0x210, B + IMPORT_NAMED: B + 0x200,
                   B + 0x200: [B + 0x300, B + 0xFF1], B + 0x210: B + 0x300, B + 0x220: B + 0x400, B + 0xFF7: b'\1'},
        'records': {0: [1, 0, 0, 80, 2], 32: [B, 0x1000, 1, 0, 1, 1, 1, 0, B + 0x400, 1, 1, B + 0x400]}, 'names': {0: b'xx'}},
     auto=1, touch=B + 0xFFD)
load('A relocated word that the end cuts is a touch with its start, which lies inside', 0, 0,
     at(B, {SEGMENTS: [0x200, 1], INTERNAL: [0x210, 1], 0x200: [0xFF0, 0x10, 0], 0x210: relocation(tag(0, 0xE), 2, 0, 0)}), None, {
         'window': {B + SEGMENTS: B + 0x200, B + INTERNAL: B + 0x210, B + 0x200: B + 0xFF0, B + 0xFFE: b'\xF0\x0F'},
         'records': {0: [1, 0, 0, 68], 32: [B, 0x1000, 1, 0, 0, 1, 0, 0, B + 0xFF0]}}, auto=1, touch=B + 0xFFE)
load('A write that is dropped is a touch: a mark cleared outside, where no handler makes the entry read', 0, 0,
     at(B, {EXTERNAL: [0xFFA, 1]}), None, {'window': {B + EXTERNAL: B + 0xFFA}, 'records': FIRST}, auto=1, touch=B + 0x1000)
load('A module entry\'s four words are read even if no module has its name: the last lies outside', 0, 0,
     at(B, {MODULE_NAME: 0x300, MODULES: [0xFF0, 1], 0x300: b'm', 0x304: b'q', 0xFF0: 0x304}), None, {
         'window': {B + MODULE_NAME: B + 0x300, B + MODULES: B + 0xFF0, B + 0xFF0: B + 0x304},
         'records': {0: [1, 0, 0, 64, 1], 32: [B, 0x1000, 1, 0, 1, 0, 0, 0]}, 'names': {0: b'm'}}, auto=1, touch=B + 0x1000)
load('A word that wraps at 2^32 into the window has two bytes outside', 0, 0, at(0, {SEGMENTS: [0xFFFFFFFE, 1]}), None, {
    'records': {0: [1, 0, 0, 68], 32: [0, 0x1000, 1, 0, 0, 1, 0, 0, 0]}}, address=0, base=0, auto=1, touch=0xFFFFFFFE)
load('A touch may start at address 0: the next field of a CRS at 0xFFFFFF78', 0, 0, LEAST, register(crs=0xFFFFFF78), {
    'window': {**MOVED, B + PREVIOUS: B}, 'records': {0: [1, 1, 0xFFFFFF78, 64], 32: [B, 0x1000, 1, 0, 0, 0, 0, 0]}}, auto=1, touch=0)
load('Of 17 segments the last lies outside; it is not kept, but read', 0, 0, at(B, {SEGMENTS: [0x1000 - 0xC0, 17]}), None, {
    'window': {B + SEGMENTS: B + 0xF40}, 'records': {0: [1, 0, 0, 128], 32: [B, 0x1000, 1, 0, 0, 16, 0, 0] + [0] * 16}},
     auto=1, touch=B + 0x1000)
unload('An unload of a module outside reads first its table of named exports', 0, 1, None, register(module(FAR, 1)),
       {'records': {0: [0, 0, 0, 32], 32: [0, 0, 0]}}, base=FAR, touch=FAR + NAMED)


# --- The file.

def data(part):
    if isinstance(part, bytes):
        return part
    return b''.join(struct.pack('<I', word) for word in (part if isinstance(part, list) else [part]))


def pieces(parts, start):
    out = b''
    for place, part in parts.items():
        part = data(part)
        out += struct.pack('<II', place - start, len(part)) + part + bytes(-len(part) % 4)
    return out


def stored(reason, call, number, value, touch, stands, changes, lengths, address, arguments):
    body = struct.pack('<18I', call, address, *lengths, *arguments, number, value, int(touch is not None), touch or 0)
    for buffer in BUFFERS:
        start = address if buffer == 'window' else 0
        before, after = stands[buffer], changes.get(buffer, {})
        body += struct.pack('<II', len(before), len(after)) + pieces(before, start) + pieces(after, start)
    return struct.pack('<I', len(body) // 4 + 1) + body


def main():
    folder = 'crates/call_cases/'
    with open(folder + 'stdin', 'wb') as file:
        file.write(struct.pack('<I', len(CASES)) + b''.join(stored(*c) for c in CASES))
    with open(folder + 'stdout', 'w') as file:
        file.write(''.join('%d ok\n' % (k + 1) for k in range(len(CASES))) + 'cases %d ok %d\n' % (len(CASES), len(CASES)))
    calls = [c[1] for c in CASES]
    print('%d cases: %d initialize, %d load, %d unload' % (len(CASES), *(calls.count(call) for call in (INITIALIZE, LOAD, UNLOAD))))
    if '--list' in sys.argv:
        for k, c in enumerate(CASES):
            print('%d %s: %s' % (k + 1, ('', 'initialize', 'load', 'unload')[c[1]], c[0]))


main()
