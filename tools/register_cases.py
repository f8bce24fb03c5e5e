#!/usr/bin/env python3
"""Makes the stored registers that the program register_cases tries, and the output that it must give.

Written from document 01, "The register", and document 02, ask 5, alone: an encoder, and a model that calls three buffers a
register exactly if they are what the encoder makes of the value read from them. Each case is made by hand with the verdict that
it must get, and the model must agree; only of the last group, bytes set at random, the model alone says the verdict.

Run from the root of the repository: python3 tools/register_cases.py [--list]
It writes crates/register_cases/stdin and stdout, the same bytes each time, and prints which cases stand for what.
"""
import random
import struct
import sys

MISSING = 32896  # bytes of the missing list
TOP = 0xFFFFFFFF
random.seed(4)


# --- The encoder of document 01.

class Module:
    def __init__(self, base=0, size=0, auto=0, name=b'', segments=(), named=(), indexed=()):
        self.base, self.size, self.auto, self.name = base, size, auto, name
        self.segments, self.named, self.indexed = list(segments), list(named), list(indexed)


class Register:
    def __init__(self, modules=(), crs=None, missing=()):
        self.modules, self.crs, self.missing = list(modules), crs, list(missing)


def words(values):
    return b''.join(struct.pack('<I', v) for v in values)


def encode_module(m, at):
    """The record, and the name bytes that it adds at offset `at`."""
    names, exports = m.name, []
    for name, address in m.named:
        exports += [at + len(names), len(name), address]
        names += name
    head = [m.base, m.size, m.auto, at, len(m.name), len(m.segments), len(m.named), len(m.indexed)]
    return words(head + m.segments + exports + m.indexed), names


def encode(reg):
    """The used bytes of the three buffers."""
    records, names = b'', b''
    for m in reg.modules:
        record, more = encode_module(m, len(names))
        records, names = records + record, names + more
    known, base = (0, 0) if reg.crs is None else (1, reg.crs)
    head = [len(reg.modules), known, base, 32 + len(records), len(names), len(reg.missing), 0, 0]
    missing = b''.join(struct.pack('<H', len(n)) + n.ljust(512, b'\0') for n in reg.missing)
    return words(head) + records, names, missing


# --- The model: read a value, and see whether it is proper and encoded so.

class NoRegister(Exception):
    pass


def need(fact):
    if not fact:
        raise NoRegister()


def read_words(data, at, count):
    need(at + 4 * count <= len(data))
    return list(struct.unpack_from('<%dI' % count, data, at))


def read_module(records, names, at):
    base, size, auto, o, l, s, n, i = read_words(records, at, 8)
    body = read_words(records, at + 32, s + 3 * n + i)
    named = [(names[body[s + 3 * k]:][:body[s + 3 * k + 1]], body[s + 3 * k + 2]) for k in range(n)]
    return Module(base, size, auto, names[o:o + l], body[:s], named, body[s + 3 * n:]), at + 32 + 4 * len(body)


def read(records, names, missing):
    count, known, base, used, named, kept, _, _ = read_words(records, 0, 8)
    need(count <= 64 and known <= 1 and kept <= 64 and len(missing) == MISSING)
    modules, at = [], 32
    for _ in range(count):
        m, at = read_module(records, names, at)
        modules.append(m)
    slots = [missing[514 * k:514 * k + 514] for k in range(kept)]
    kept_names = [s[2:2 + struct.unpack_from('<H', s)[0]] for s in slots]
    return Register(modules, base if known else None, kept_names)


def proper_name(n):
    return len(n) <= 512 and 0 not in n


def proper(reg):
    names = list(reg.missing)
    for m in reg.modules:
        own = [n for n, _ in m.named]
        need(m.auto <= 1 and len(m.segments) <= 16 and all(a < b for a, b in zip(own, own[1:])))
        names += [m.name] + own
    return all(proper_name(n) for n in names)


def is_register(records, names, missing):
    try:
        reg = read(records, names, missing)
        need(proper(reg))
    except NoRegister:
        return False
    r, n, m = encode(reg)
    if not reg.modules and records[12:16] == words([0]):
        r = put(r, 12, words([0]))
    return (records, names, missing) == (r.ljust(len(records), b'\0'), n.ljust(len(names), b'\0'), m.ljust(MISSING, b'\0'))


# --- Cases: three buffers, the bytes in memory after each, the expected verdict, and the reason in one line.

NOTHING = (b'', b'', b'')


class Case:
    def __init__(self, buffers, tails, valid, reason):
        self.buffers, self.tails, self.valid, self.reason = buffers, tails, valid, reason


GROUPS = []  # (heading, list of cases)


def group(heading):
    GROUPS.append((heading, []))


def case(buffers, valid, reason, tails=NOTHING):
    buffers = tuple(bytes(b) for b in buffers)
    if is_register(*buffers) != valid:
        sys.exit('the model differs: %s: %s' % (GROUPS[-1][0], reason))
    GROUPS[-1][1].append(Case(buffers, tails, valid, reason))


def good(buffers, reason, tails=NOTHING):
    case(buffers, True, reason, tails)


def bad(buffers, reason, tails=NOTHING):
    case(buffers, False, reason, tails)


def put(data, at, new):
    """The bytes with `new` laid over them."""
    assert at + len(new) <= len(data)
    return data[:at] + new + data[at + len(new):]


def lend(reg, more_records=0, more_names=0):
    """The register in buffers with so many bytes left over."""
    r, n, m = encode(reg)
    return r + bytes(more_records), n + bytes(more_names), m.ljust(MISSING, b'\0')


def empty(records=32, names=0, word3=0):
    return put(bytes(records), 12, words([word3])), bytes(names), bytes(MISSING)


def word(buffers, i, v):
    """The buffers with word i of the records replaced."""
    r, n, m = buffers
    return put(r, 4 * i, words([v])), n, m


def change(buffers, i, by):
    v = struct.unpack_from('<I', buffers[0], 4 * i)[0]
    return word(buffers, i, (v + by) % 2**32)


def byte(buffers, which, at, v):
    """The buffers with one byte of one of them replaced; a place below 0 counts from its end."""
    out = list(buffers)
    out[which] = put(out[which], at % len(out[which]), bytes([v]))
    return tuple(out)


def cut(buffers, which, length):
    """The buffers with one of them cut, or lengthened by zeros."""
    out = list(buffers)
    out[which] = out[which][:length].ljust(length, b'\0')
    return tuple(out)


def address():
    return random.randrange(2**32)


def exports(names):
    return [(n if isinstance(n, bytes) else n.encode(), address()) for n in names]


def numbered(n, form='name%03d'):
    return [form % k for k in range(n)]


def module(name, names=(), segments=0, indexed=0, auto=1, base=None):
    name = name if isinstance(name, bytes) else name.encode()
    return Module(address() if base is None else base, 0x4000, auto, name, [address() for _ in range(segments)],
                  exports(names), [address() for _ in range(indexed)])


def one(*args, **named):
    return Register([module(*args, **named)])


def pair():
    """Two modules; the first one's record has 27 words, from word 8 on, and the second one's starts at word 35."""
    return Register([module('first', ['', 'alpha', 'beta'], 4, 6), module('second', ['alpha', 'gamma'], 2, 1)],
                    0x10000000, [b'lost', b'', b'gone'])


SECOND = 8 + 27


def shuffled(names):
    names = list(names)
    random.shuffle(names)
    return names


def text(n):
    """A name of n bytes, of any values but 0."""
    return bytes(random.randrange(1, 256) for _ in range(n))


# --- Registers.

def valid_empty():
    group('valid, empty: all zero or word 3 = 32, R of 32 bytes and more (claims 107, 109, 115, 118)')
    for r, n in [(32, 0), (33, 0), (34, 1), (35, 2), (36, 0), (4096, 4096), (8191, 8192), (8192, 8192)]:
        good(empty(r, n), 'all zero, R %d, N %d' % (r, n))
    for r, n in [(32, 0), (33, 7), (8192, 0)]:
        good(empty(r, n, 32), 'word 3 = 32, R %d, N %d' % (r, n))


def valid_crs():
    group('valid, CRS and modules apart from each other (claims 108, 117)')
    for base in [0, 0x10000000, TOP]:
        for word3 in [0, 32]:
            good(word(word(empty(40, 3, word3), 1, 1), 2, base), 'CRS %#x known, no module, word 3 = %d' % (base, word3))
    good(lend(Register([module('a', base=64)], 128)), 'CRS at no module\'s base')
    good(lend(Register([module('a', base=64)], 64)), 'CRS at a module\'s base')
    good(lend(Register([module('a', base=64)], 0)), 'CRS known at 0, with a module')
    good(lend(Register([module('a', base=64)])), 'CRS unknown, with a module')
    good(lend(Register([], None, [b'x'])), 'a missing name and no module, word 3 = 32')
    good(word(lend(Register([], None, [b'x'])), 3, 0), 'a missing name and no module, word 3 = 0')
    good(lend(Register([], 4096, [b'x', b'y']), 5, 5), 'missing names, CRS and no module')


def valid_modules():
    group('valid, 1 to 64 modules, 0 to 16 segments, any words, buffers full or not (claims 107 to 111)')
    good(lend(Register([Module()])), 'a module of zeros, N empty')
    good(lend(Register([Module(TOP, TOP, 1, b'', [TOP], [(b'', TOP)], [TOP])])), 'words of ones, N empty')
    good(lend(Register([Module(1, 2, 0, b'n')])), 'auto-link 0')
    good(lend(Register([Module(1, 2, 1, b'n')])), 'auto-link 1')
    for s in [1, 2, 15, 16]:
        good(lend(one('segments', ['e'], s, 1)), '%d segments' % s)
    for i in [1, 100, 1000]:
        good(lend(one('indexed', [], 0, i)), '%d indexed exports' % i)
    for n in [2, 3, 8, 63, 64]:
        good(lend(Register([module('m%d' % k, ['e'], k % 17) for k in range(n)])), '%d modules' % n)
    good(lend(Register([Module()] * 64)), '64 modules of zeros')
    good(lend(Register([module('', [], 16)] * 64), 8, 8), '64 modules of 16 segments')
    for more in [1, 2, 3, 4, 500]:
        good(lend(pair(), more, 0), 'R %d bytes longer than used, N full' % more)
    for more in [1, 500]:
        good(lend(pair(), 0, more), 'N %d bytes longer than used, R full' % more)
    good(lend(pair()), 'both full')


def valid_names():
    group('valid, names of 0 to 512 bytes, any byte but 0 (claims 112, 113)')
    for n in [0, 1, 255, 256, 511, 512]:
        good(lend(one(text(n), ['e']), 0, 3), 'module name of %d bytes' % n)
    for n in [0, 1, 511, 512]:
        good(lend(one('m', [text(n)]), 3, 0), 'export name of %d bytes' % n)
    good(lend(one(bytes(range(1, 256)), [bytes(range(255, 0, -1))])), 'every byte but 0')
    long = Register([module(text(512), sorted(text(512) for _ in range(3))) for _ in range(4)])
    good(lend(long), '16 names of 512 bytes, N full')
    good(lend(Register([module('a'), module(''), module('b')])), 'an unnamed module between two')
    good(lend(one('', ['', 'x'])), 'an unnamed module with an unnamed export')


def exports_of_records():
    group('distinct export names: valid ascending, refused in any other order; equal ones in two records (claim 114)')
    few = ['alpha', 'beta', 'gamma']
    good(lend(one('m', few)), '3 exports, ascending')
    for names, order in [(few[::-1], 'descending'), (['beta', 'alpha', 'gamma'], 'mixed')]:
        bad(lend(one('m', names)), '3 exports, ' + order)
    many = numbered(200)
    mixed = shuffled(many)
    good(lend(one('m', many)), '200 exports, ascending')
    for names, order in [(many[::-1], 'descending'), (mixed, 'mixed')]:
        bad(lend(one('m', names)), '200 exports, ' + order)
    bad(lend(one('m', many[:-2] + [many[-1], many[-2]])), '200 exports, only the last two exchanged')
    good(lend(one('m', ['a', 'ab', 'abc'])), 'each name begins the next')
    bad(lend(one('m', ['abc', 'ab', 'a'])), 'each name begins the one before')
    good(lend(one('m', [b'\x7f', b'\x80', b'\xff'])), 'bytes above 127')
    long = text(511)
    bad(lend(one('m', [long + b'b', long + b'a'])), 'names of 512 bytes that differ in the last, exchanged')
    bad(lend(one('m', ['x', '', 'y'])), 'one empty name between others')
    good(lend(one('m', ['m'])), 'export named as its module')
    good(lend(Register([module('a', ['same']), module('b', ['same'])])), 'the same export name in two records')
    good(lend(Register([module('a', ['']), module('b', [''])])), 'an empty export name in two records')
    good(lend(Register([module('a', base=1), module('a', base=2)])), 'equal module names')
    good(lend(Register([module('a', base=1), module('b', base=1)])), 'equal bases')
    bad(lend(Register([module('a', ['e', 'd'], base=1)] * 3)), 'three equal records but for the offsets, descending')


def valid_missing():
    group('valid, 0 to 64 missing names of 0 to 512 bytes (claim 116)')
    for n in [0, 1, 255, 256, 257, 511, 512]:
        good(lend(Register([], None, [text(n)])), 'a missing name of %d bytes' % n)
    for n in [1, 2, 63, 64]:
        good(lend(Register([], None, [b''] * n)), '%d empty missing names' % n)
    for n in [2, 63, 64]:
        good(lend(Register([], None, [b'n%d' % k for k in range(n)])), '%d missing names' % n)
    good(lend(Register([module('m')], 1, [text(512) for _ in range(64)])), '64 missing names of 512 bytes')
    good(lend(Register([], None, [b'twice', b'twice'])), 'the same missing name twice')
    good(word(lend(pair()), 5, 4), 'a count one greater: the slot of zeros is an empty name')


def valid_before_others():
    group('valid, and nonzero bytes stand right after the lent ones (claim 120)')
    good(empty(), 'no module, ones after R', (b'\xff' * 9, b'', b''))
    good(empty(35, 3), 'no module, ones after each buffer', (b'\xff' * 9, b'\xff' * 9, b'\xff' * 4))
    good(lend(pair()), 'two modules, R and N full, ones after each', (b'\xff' * 9, b'\xff' * 9, b'\xff' * 4))
    good(lend(pair(), 3, 3), 'two modules, ones after each', (b'\xff' * 9, b'\xff' * 9, b'\xff' * 4))
    good(lend(Register([], 0, [b'x' * 512] * 2)), 'missing names, ones after each', (b'\xff' * 9, b'\xff' * 9, b'\xff' * 4))


# --- Damaged ones.

def bad_lengths():
    group('R shorter than 32 bytes, M not of 32,896 bytes (claim 107; A6)')
    for r in [0, 1, 4, 8, 16, 28, 31]:
        bad(cut(empty(), 0, r), 'all zero, R %d' % r)
    bad(cut(empty(32, 0, 32), 0, 31), 'word 3 = 32, R 31')
    for m in [0, 1, 514, 32382, 32895, 32897, 32900]:
        bad(cut(empty(), 2, m), 'all zero, M %d' % m)
    for m in [32895, 32897]:
        bad(cut(lend(pair(), 4, 4), 2, m), 'two modules, M %d' % m)
    full = lend(Register([], None, [b'n'] * 64))
    bad(cut(full, 2, 32895), '64 missing names, M 32895')


def bad_header():
    group('word 0 over 64 or not the number of records, words 1, 2, 6 and 7 (claim 108)')
    for n in [65, 66, TOP]:
        bad(word(empty(4096), 0, n), 'all else zero, %d modules' % n)
    bad(lend(Register([Module()] * 65)), '65 records, all there')
    bad(lend(Register([Module()] * 65), 40, 40), '65 records, and room')
    bad(word(empty(), 0, 1), 'word 0 = 1 and no record')
    bad(word(empty(64, 0, 32), 0, 1), 'word 0 = 1, word 3 = 32, zeros there')
    bad(word(lend(pair()), 0, 1), 'word 0 = 1, two records')
    bad(word(lend(pair(), 64), 0, 3), 'word 0 = 3, two records')
    bad(word(lend(pair()), 0, 0), 'word 0 = 0, two records')
    for v in [2, 3, 256, 0x80000000, TOP]:
        bad(word(empty(), 1, v), 'word 1 = %#x' % v)
    bad(word(lend(pair()), 1, 2), 'word 1 = 2, two records')
    for v in [1, 256, 0x80000000, TOP]:
        bad(word(empty(), 2, v), 'CRS unknown, base %#x' % v)
    bad(word(lend(one('m')), 2, 4096), 'CRS unknown, base 4096, a module')
    for i in [6, 7]:
        for v in [1, 0x01000000, TOP]:
            bad(word(empty(40), i, v), 'word %d = %#x' % (i, v))
        bad(word(lend(pair()), i, 1), 'word %d = 1, two records' % i)


def bad_used():
    group('word 3 (claim 109; A1)')
    for v in [1, 4, 28, 31, 33, 36, 64, 128, 0xFFFFFFE0, TOP]:
        bad(empty(128, 0, v), 'no module, word 3 = %#x' % v)
    bad(word(empty(128, 0, 36), 1, 1), 'no module, CRS known, word 3 = 36')
    used = len(encode(pair())[0])
    for v in [0, 32, used - 4, used - 3, used - 2, used - 1, used + 1, used + 2, used + 3, used + 4, used + 32, used + 64]:
        bad(word(lend(pair(), 64), 3, v), 'two records, word 3 is %d and not %d' % (v, used))
    for v in [used + 65, used + 68, used + 2**16, used + 2**31, TOP - 3]:
        bad(word(lend(pair(), 64), 3, v), 'two records, word 3 past the buffer')
    bad(word(lend(Register([Module()])), 3, 0), 'one record of zeros, word 3 = 0')
    for gone in [1, 2, 3, 4, 8, used - 32]:
        r, n, m = lend(pair())
        bad((r[:-gone], n, m), 'truncated: the last %d bytes of R are not lent' % gone)
    bad(word(cut(lend(pair()), 0, used - 4), 3, used - 4), 'truncated, and word 3 too')


def bad_name_bytes_used():
    group('word 4 not the sum of the name lengths or past N, word 5 over 64 (claim 110)')
    for by in [1, -1, 4, 2**16, 2**31]:
        bad(change(lend(pair(), 4, 4), 4, by), 'word 4 off by %d' % by)
    bad(word(lend(pair()), 4, 0), 'word 4 = 0, names there')
    bad(word(lend(pair()), 4, TOP), 'word 4 = 2^32 - 1')
    bad(change(byte(lend(pair(), 0, 1), 1, -1, 65), 4, 1), 'word 4 counts a byte of no name')
    bad(word(empty(32, 8), 4, 1), 'no module, word 4 = 1')
    bad(word(lend(Register([Module()]), 0, 8), 4, 8), 'no name, word 4 is N\'s length')
    bad(change(lend(pair()), 4, 1), 'word 4 one past a full N')
    length = len(encode(pair())[1])
    for n in [length - 1, 1, 0]:
        bad(cut(lend(pair()), 1, n), 'N of %d bytes, %d used' % (n, length))
    for v in [65, 66, 256, 0x40000000, TOP]:
        bad(word(empty(), 5, v), 'word 5 = %#x, no name in M' % v)
    bad(word(lend(Register([], None, [b'n'] * 64)), 5, 65), 'word 5 = 65, 64 names in M')


def bad_record():
    group('auto-link over 1, more than 16 segments, counts that the record does not have (claim 111)')
    for v in [2, 3, 256, 0x80000000, TOP]:
        bad(word(lend(pair()), 10, v), 'auto-link %#x' % v)
    bad(word(lend(pair()), SECOND + 2, 2), 'auto-link 2 in the second record')
    bad(lend(one('m', ['e'], 17)), '17 segments, all there')
    bad(lend(Register([module('a', [], 16), module('b', [], 17)])), '17 segments in the second record')
    for v in [17, 0x40000000, TOP]:
        bad(word(lend(one('m')), 13, v), '%#x segments, none there' % v)
    for i, what in [(13, 'segments'), (14, 'named'), (15, 'indexed')]:
        bad(change(lend(pair()), i, 1), '%s one too great' % what)
        bad(change(lend(pair()), i, -1), '%s one too small' % what)
        bad(change(lend(pair(), 16), SECOND + i - 8, 1), '%s one too great in the last record' % what)


def bad_wrapped():
    group('counts near 2^32 whose size, wrapped, would fit (claim 111)')
    bare = Register([Module(1, 2, 1)])
    for named, indexed, why in [
            (0x40000000, 0, '12 * 2^30 wraps to 0'),
            (0x80000000, 0, '12 * 2^31 wraps to 0'),
            (0, 0x40000000, '4 * 2^30 wraps to 0'),
            (0, 0xC0000000, '4 * 3 * 2^30 wraps to 0'),
            (TOP, 3, '3 * (2^32 - 1) + 3 wraps to 0'),
            (1, 0xFFFFFFFD, '3 + (2^32 - 3) wraps to 0'),
            (0x55555555, 1, '3 * 0x55555555 + 1 wraps to 0')]:
        bad(word(word(lend(bare, 64), 14, named), 15, indexed), why)
    with_2 = Register([Module(1, 2, 1, b'', [], [], [5, 6])])
    bad(word(word(lend(with_2), 14, 0x15555556), 15, 0), '12 * 0x15555556 wraps to the 8 bytes there')
    bad(word(word(lend(with_2), 14, 0x55555556), 15, 0), '3 * 0x55555556 wraps to the 2 words there')
    bad(word(word(lend(with_2), 13, 3), 15, TOP), '3 + (2^32 - 1) wraps to the 2 words there')
    bad(word(lend(with_2), 15, 0x40000002), '4 * 0x40000002 wraps to the 8 bytes there')
    back = word(word(empty(96, 0, 32), 0, 1), 15, 0xFFFFFFF8)
    bad(back, '8 + (2^32 - 8) wraps to a record of no bytes')


def bad_offsets():
    group('name offsets that are not the running sum (claim 112; A7)')
    for by in [1, -1, 2**31]:
        bad(change(lend(pair(), 0, 8), 11, by), 'first module\'s name offset off by %d' % by)
        bad(change(lend(pair(), 0, 8), SECOND + 3, by), 'second module\'s name offset off by %d' % by)
        bad(change(lend(pair(), 0, 8), 20, by), 'first export\'s name offset off by %d' % by)
        bad(change(lend(pair(), 0, 8), SECOND + 13, by), 'last export\'s name offset off by %d' % by)
    bad(word(lend(one('')), 11, 5), 'empty module name, offset 5')
    bad(word(lend(one(''), 0, 8), 11, 1), 'empty module name, offset 1, N longer')
    bad(word(lend(one('m', [''])), 16, 0), 'empty export name, offset 0')
    bad(word(lend(one('m', [''])), 16, 2), 'empty export name, offset one too great')
    bad(word(lend(pair()), 20, 0), 'empty first export name of three, offset 0')
    bad(word(lend(one('m', [''])), 16, TOP), 'empty export name, offset 2^32 - 1')


def bad_order():
    group('names packed in another order, apart or shared (claim 112)')
    r, n, m = lend(one('ab', ['cd', 'ef']))
    bad((put(put(r, 4 * 11, words([2])), 64, words([0])), b'cdabef', m), 'an export\'s name before its module\'s')
    bad((put(put(r, 64, words([4])), 76, words([2])), b'abefcd', m), 'two exports\' names exchanged')
    two = lend(Register([module('ab'), module('cd')]))
    bad((word(word(two, 11, 2), 19, 0)[0], b'cdab', m), 'two modules\' names exchanged')
    gap = change(word((r, n, m), 19, 5), 4, 1)
    bad((gap[0], b'abcd\0ef', m), 'a zero byte between two names')
    bad((gap[0], b'abcdxef', m), 'a byte of no name between two names')
    first = change(change(lend(one('ab')), 4, 1), 11, 1)
    bad((first[0], b'xab', m), 'a byte of no name before the first')
    twice = word(word(lend(Register([module('ab'), module('ab')])), 19, 0), 4, 2)
    bad((twice[0], b'ab', m), 'two modules share their name\'s bytes')
    over = word(word(lend(one('m', ['ab', 'b'])), 19, 2), 4, 3)
    bad((over[0], b'mab', m), 'two exports\' names overlap')


def bad_names():
    group('names of more than 512 bytes (claim 113)')
    bad(lend(one(text(513))), 'module name of 513 bytes')
    bad(lend(one(text(600)), 8, 8), 'module name of 600 bytes')
    bad(lend(one('m', [text(513)])), 'export name of 513 bytes')
    bad(lend(one('m', ['a', b'\xff' + text(513)[1:]]), 8, 8), 'second export\'s name of 513 bytes')
    bad(lend(Register([module('a'), module(text(513))])), 'second module\'s name of 513 bytes')
    bad(word(lend(pair()), 12, TOP), 'module name of 2^32 - 1 bytes')
    bad(word(lend(pair()), 21, 0x80000000), 'export name of 2^31 bytes')
    group('a zero in a name (claim 113)')
    for at in [0, 2, 4]:
        name = put(b'hello', at, b'\0')
        bad(lend(one(name, ['e'])), 'zero at place %d of a module name' % at)
        bad(lend(one('m', sorted([b'a', name, b'z']))), 'zero at place %d of an export name' % at)
    bad(lend(one(b'\0')), 'module name of one zero')
    bad(lend(one('m', [b'\0'])), 'export name of one zero')
    bad(lend(one(bytes(512))), 'module name of 512 zeros')
    bad(lend(one(text(511) + b'\0')), 'zero at the end of 512 bytes')
    bad(lend(Register([module('a'), module('b'), module(b'c\0')])), 'zero in the last module\'s name')
    bad(lend(Register([module('a'), module('b', ['x', b'y\0'])]), 4, 4), 'zero in the last export\'s name')


def bad_exports():
    group('equal export names in one record (claim 114)')
    bad(lend(one('m', ['a', 'a'])), 'the only two')
    bad(lend(Register([Module(1, 2, 1, b'm', [], [(b'a', 7), (b'a', 7)])])), 'the only two, with one address')
    bad(lend(one('m', ['a', 'b', 'b', 'c'])), 'adjacent, else ascending')
    bad(lend(one('m', ['d', 'b', 'b', 'a'])), 'adjacent, else descending')
    bad(lend(one('m', ['a', 'b', 'c', 'a'])), 'first and last, else ascending')
    bad(lend(one('m', ['c', 'a', 'b', 'c'])), 'first and last, unsorted')
    bad(lend(one('m', ['b', 'd', 'a', 'd', 'c'])), 'apart, unsorted')
    bad(lend(one('m', ['', ''])), 'two empty names')
    bad(lend(one('m', ['', 'x', ''])), 'two empty names apart')
    bad(lend(one('m', ['a', 'a', 'a'])), 'three')
    many = numbered(100)
    bad(lend(one('m', many + [many[0]])), 'first of 100 ascending again at the end')
    bad(lend(one('m', many + [many[99]])), 'last of 100 ascending again at the end')
    bad(lend(one('m', many[:50] + [many[49]] + many[50:])), 'in the middle of 100 ascending')
    bad(lend(one('m', shuffled(many) + [many[7]])), 'one of 100 mixed again at the end')
    long = text(512)
    bad(lend(one('m', [long, long])), 'names of 512 bytes')
    bad(lend(Register([module('a', ['x']), module('b', ['x', 'y', 'x'])])), 'in the second record')


def bad_unused():
    group('a nonzero byte after the used ones of R (claim 115)')
    base = lend(pair(), 61, 61)
    used, named = len(encode(pair())[0]), len(encode(pair())[1])
    for at, what in [(used, 'first'), (used + 3, 'fourth'), (used + 30, 'middle'), (used + 59, 'last whole word\'s last'),
                     (-1, 'last')]:
        bad(byte(base, 0, at, 1), '%s unused byte' % what)
    for word3 in [0, 32]:
        for at in [32, 50, -1]:
            bad(byte(empty(99, 0, word3), 0, at, 128), 'no module, word 3 = %d, byte at %d' % (word3, at))
    for r in [33, 34, 35]:
        bad(byte(empty(r), 0, -1, 255), 'last byte of %d' % r)
    group('a nonzero byte after the used ones of N (claim 115)')
    for at, what in [(named, 'first'), (named + 30, 'middle'), (-1, 'last')]:
        for v in [1, 255]:
            bad(byte(base, 1, at, v), '%s unused byte is %d' % (what, v))
    bad(byte(empty(32, 1), 1, 0, 1), 'no module, N of one byte')
    for at in [0, 4000, -1]:
        bad(byte(empty(32, 8192), 1, at, 128), 'no module, byte at %d of 8192' % at)


def bad_slots():
    group('missing slots: lengths and bytes (claim 116; A8, A9)')
    base = lend(Register([], None, [b'hello', b'', text(512)]))
    for low, high in [(1, 2), (0, 3), (255, 255), (5, 2)]:
        bad(byte(byte(base, 2, 0, low), 2, 1, high), 'length %d' % (low + 256 * high))
    long = lend(Register([], None, [text(512)]))
    bad(byte(long, 2, 0, 1), 'length 513 of 512 bytes and the next slot\'s')
    next_too = lend(Register([], None, [text(512), b'abc']))
    bad(byte(next_too, 2, 0, 1), 'length 513 of 512 bytes, and a name in the next slot')
    bad(byte(base, 2, 0, 6), 'length one too great: a zero at the end')
    bad(byte(base, 2, 0, 4), 'length one too small: a byte after the name')
    bad(byte(byte(base, 2, 0, 0), 2, 1, 5), 'length with the high byte first')
    for at in [7, 250, 513]:
        bad(byte(base, 2, at, 1), 'nonzero byte at %d, after the first slot\'s name' % at)
    for at in [516, 800, 1027]:
        bad(byte(base, 2, at, 255), 'nonzero byte at %d, in the slot of an empty name' % at)
    for at in [2, 4, 6]:
        bad(byte(base, 2, at, 0), 'zero at place %d of a missing name' % (at - 2))
    bad(byte(base, 2, 1030, 0), 'zero at the start of a name of 512 bytes')
    bad(byte(base, 2, 1541, 0), 'zero at the end of a name of 512 bytes')
    full = lend(Register([], None, [b'n%d' % k for k in range(64)]))
    bad(byte(full, 2, 63 * 514 + 2, 0), 'zero in the last of 64 names')
    bad(byte(full, 2, -1, 1), 'last byte of M, 64 names')
    bad(byte(full, 2, 63 * 514 + 1, 2), 'length over 512 in the last of 64 slots')


def bad_slots_after():
    group('a nonzero byte in a slot after the count (claims 115, 116; A18)')
    for at in [0, 1, 2, 513, 16448, 32382, -1]:
        bad(byte(empty(), 2, at, 1), 'count 0, byte at %d' % at)
    base = lend(pair())
    for at in [3 * 514, 3 * 514 + 2, 20000, -1]:
        bad(byte(base, 2, at, 1), 'count 3, byte at %d' % at)
    for n in [0, 1, 2]:
        bad(word(base, 5, n), 'count %d, 3 names in M' % n)
    full = lend(Register([], None, [b'n%d' % k for k in range(64)]))
    bad(word(full, 5, 63), 'count 63, 64 names in M')


def hide(buffers, which, length):
    """The buffers with one cut, and the bytes that stand after its end."""
    tails = list(NOTHING)
    tails[which] = buffers[which][length:]
    return cut(buffers, which, length), tails


def bad_past_end():
    group('what would be right stands, but after the end of a lent buffer (claims 109, 110, 120)')
    whole = lend(pair())
    for which, gone in [(0, 1), (0, 4), (0, 64), (1, 1), (1, 4), (1, len(whole[1])), (2, 1), (2, 514)]:
        buffers, tails = hide(whole, which, len(whole[which]) - gone)
        bad(buffers, 'the last %d bytes of %s are not lent' % (gone, ['R', 'N', 'M'][which]), tails)
    for r in [0, 16, 31]:
        buffers, tails = hide(empty(32, 0, 32), 0, r)
        bad(buffers, 'R %d, the rest of an empty register after it' % r, tails)
    buffers, tails = hide(lend(one(text(40))), 1, 39)
    bad(buffers, 'the last byte of a name is not lent', tails)


def bad_other():
    group('other bytes (claim 119)')
    bad((b'\xff' * 64, b'\xff' * 8, b'\xff' * 64 + bytes(MISSING - 64)), 'ones')
    bad((text(400), text(40), bytes(MISSING)), 'any bytes')
    r, n, m = lend(pair())
    bad((n, r, m), 'records and names exchanged')
    bad((b''.join(r[i:i + 4][::-1] for i in range(0, len(r), 4)), n, m), 'words with the highest byte first')
    bad((bytes(4) + r, n, m), 'one word of zeros before the records')
    bad((r[4:], n, m), 'the first word left out')
    bad((r[:32] + r[32 + 108:] + r[32:32 + 108], n, m), 'the records exchanged, the names not')


def exporting(*records):
    """A register of a module for each list of export names."""
    return Register([Module(0x100000, 0x1000, 1, b'm', [], [(n, 16 * k) for k, n in enumerate(names)]) for names in records])


def name_order():
    group('the order of export names: bytes as unsigned numbers, a name before those that extend it (request 5)')
    long = b'n' * 511
    for names, what in [
            ([b'a', b'b'], 'two names'),
            ([b'a', b'ab'], 'a name and one that extends it'),
            ([b'', b'a'], 'the empty name and another'),
            ([b'\x7f', b'\x80'], 'bytes 7F and 80'),
            ([b'aa', b'b'], 'a longer name before a shorter'),
            ([long + b'a', long + b'b'], 'names of 512 bytes that differ in the last')]:
        good(lend(exporting(names)), what)
        bad(lend(exporting(names[::-1])), what + ', exchanged')
    bad(lend(exporting([b'a', b'c', b'b'])), 'three names, the last two exchanged')
    bad(lend(exporting([b'b', b'a', b'c'])), 'three names, the first two exchanged')
    good(lend(exporting([b'c', b'd'], [b'a', b'b'])), 'each record has an order of its own')
    bad(lend(exporting([b'a', b'b'], [b'd', b'c'])), 'two names of the second record exchanged')
    good(lend(exporting([b'd', b'e'], [b'd', b'e'], [b'd', b'e'])), 'three equal records but for the offsets')
    r, n, m = lend(exporting([b'a', b'b']))
    bad((put(put(r, 64, words([2])), 76, words([1])), b'mba', m), 'the names in order, their bytes exchanged')


def changed_at_random():
    group('one byte set at random; only the model says the verdict (claim 119)')
    for k in range(120):
        buffers = lend(pair(), 6, 6)
        which = [0, 0, 0, 1, 2][k % 5]
        at = random.randrange([len(buffers[0]), len(buffers[1]), 4 * 514][which])
        v = random.choice([0, 1, 2, 64, 65, 255])
        buffers = byte(buffers, which, at, v)
        case(buffers, is_register(*buffers), 'byte %d of %s is %d' % (at, ['R', 'N', 'M'][which], v))


ALL = [valid_empty, valid_crs, valid_modules, valid_names, exports_of_records, valid_missing, valid_before_others,
       bad_lengths, bad_header, bad_used, bad_name_bytes_used, bad_record, bad_wrapped, bad_offsets, bad_order,
       bad_names, bad_exports, bad_unused, bad_slots, bad_slots_after, bad_past_end, bad_other, name_order,
       changed_at_random]


# --- The stored file: see crates/register_cases/src/main.rt.

def pieces(data):
    """Runs of bytes with at most 8 zeros between."""
    found, at = [], 0
    while True:
        while at < len(data) and data[at] == 0:
            at += 1
        if at == len(data):
            return found
        end = data.find(bytes(9), at)
        end = len(data.rstrip(b'\0')) if end < 0 else end
        found.append((at, data[at:end]))
        at = end


def stored(c):
    runs = [pieces(b + t) for b, t in zip(c.buffers, c.tails)]
    out = words([len(b) for b in c.buffers] + [len(r) for r in runs])
    for at, data in runs[0] + runs[1] + runs[2]:
        out += words([at, len(data)]) + data + bytes(-len(data) % 4)
    return out


def fits(c):
    return all(len(b + t) <= n for b, t, n in zip(c.buffers, c.tails, [8192, 8192, 32900]))


def main():
    for make in ALL:
        make()
    cases = [c for _, cs in GROUPS for c in cs]
    data = words([len(cases)]) + b''.join(stored(c) for c in cases)
    assert len(data) <= 262144 and all(fits(c) for c in cases)
    lines = ['%d %s' % (k, 'valid' if c.valid else 'refused') for k, c in enumerate(cases, 1)]
    valid = sum(c.valid for c in cases)
    lines.append('cases %d valid %d refused %d' % (len(cases), valid, len(cases) - valid))
    with open('crates/register_cases/stdin', 'wb') as f:
        f.write(data)
    with open('crates/register_cases/stdout', 'w') as f:
        f.write('\n'.join(lines) + '\n')
    report('--list' in sys.argv)
    print(lines[-1])


def report(each):
    print('| cases | what they are | valid | refused |\n|---|---|---|---|')
    k = 1
    for heading, cs in GROUPS:
        valid = sum(c.valid for c in cs)
        print('| %d to %d | %s | %d | %d |' % (k, k + len(cs) - 1, heading, valid, len(cs) - valid))
        for c in cs:
            if each:
                print('    %d %s: %s' % (k, 'valid' if c.valid else 'refused', c.reason))
            k += 1


main()
