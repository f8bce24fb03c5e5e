#!/usr/bin/env python3
"""Makes the stored sessions that the program session_cases runs, and the output that it must give.

There are two kinds. The first 114 are sessions of host/differential's families and sessions that fill the register, made from
seeds when the program was written. Their files are kept as they are stored: they are their own source. Their texts are the Rust's;
host/differential/tests/session_texts.rs runs each file on the Rust and holds its text to what that gives. The second kind is
written by hand from document 01, "The session program", and docs/DECISIONS.md, A40 to A48: each file with its text and a line of
reason. The same test holds those of them to the Rust that it can answer.

No case has number 4: the register starts as one and every call leaves one. None has a 65th module, since a session has
at most 64 steps; number 5 is for want of record or name bytes. Number 3 has no counterpart in the Rust and is by hand.

Run from the root of the repository: python3 tools/session_cases.py [--list]
It writes crates/session_cases/stdin and stdout. --list prints what each case stands for.
"""
import collections
import re
import struct
import sys

FOLDER = 'crates/session_cases/'
FROM_THE_RUST = 114
AT = 0x100000  # where most windows stand
PAGE = 0x1000
TOP = 0xFFFFFFFF
BAD = 'session bad\n'


# --- Session files.

def words(*values):
    return struct.pack('<%dI' % len(values), *(v & TOP for v in values))


def initialize(base=AT, size=PAGE):
    return words(1, base, size, 0, 0, 0, 0, 0, 0)


def load(base=AT, size=PAGE, data=0, data_size=0, bss=0, bss_size=0, auto=1, level=1):
    return words(2, base, size, data, data_size, bss, bss_size, auto, level)


def unload(base=AT):
    return words(3, base, 0, 0, 0, 0, 0, 0, 0)


def session(steps, window=bytes(PAGE), at=AT, **head):
    """Five words, the steps, the window; `head` names words that are to be otherwise."""
    table = b''.join(steps)
    has = dict(count=len(steps), table=20, at=at, length=len(window), offset=20 + len(table))
    has.update(head)
    return words(has['count'], has['table'], has['at'], has['length'], has['offset']) + table + window


def image(fields=(), magic=b'CRO0', size=PAGE):
    """A module's image: the magic, a code part of 16 bytes after the header, and the fields, words or bytes at offsets."""
    data = bytearray(size)
    given = {0x080: magic, 0x0B0: 0x138, 0x0B4: 0x10}
    given.update(fields)
    for offset, field in given.items():
        part = words(field) if isinstance(field, int) else field
        data[offset:offset + len(part)] = part
    return bytes(data)


# a segment over the code, at 0x140, so that tag 0 is usable
CODE = {0x0C8: 0x140, 0x0CC: 1, 0x140: words(0x138, 0x10, 0)}


def exporting(entries, more=()):
    """An image with named exports: pairs of an offset of the name and a tag."""
    return {**CODE, 0x0D0: 0x180, 0x0D4: len(entries), 0x180: b''.join(words(*e) for e in entries), **dict(more)}


def importing(names, more=(), batch=0x150):
    """An image with named imports of the names at the offsets, all with the batch at 0x150, one entry that writes nothing."""
    table = b''.join(words(name, batch) for name in names)
    return {0x100: 0x180, 0x104: len(names), 0x180: table, 0x150: words(0, 0x100, 0), **dict(more)}


# --- Sessions by hand.

CASES = []


def case(reason, file, *lines):
    """A file and its lines; no lines stand for a bad file."""
    CASES.append((reason, file, ''.join(line + '\n' for line in lines) or BAD))


NONE = ['session 0', 'missing 0']
ONE_UNLOAD = ['session 1', '1 unload 0 0', 'missing 0']
EXAMPLE = ['session 3', '1 unload 0 0', '2 load 1 0', '3 load 0 1000', 'module 100000 1000 1 0 0 0', 'missing 0']
EXAMPLE_STEPS = [unload(AT), load(AT + 0x800), load(AT)]
LOADED = ['session 1', '1 load 0 1000', 'module 100000 1000 1 0 0 0', 'missing 0']


def lengths():
    """20 to 49,152 bytes."""
    case('an empty file', b'')
    case('a file of 19 bytes', bytes(19))
    case('a file of 20 bytes', bytes(20), *NONE)
    case('a file of 21 bytes: no whole word is asked', bytes(21), *NONE)
    case('a file of 49,151 bytes', bytes(49151), *NONE)
    case('a file of 49,152 bytes', bytes(49152), *NONE)
    case('a file of 49,153 bytes', bytes(49153))
    case('49,153 bytes that would be zeros after a good session', session([unload()]).ljust(49153, b'\0'))
    case('49,152 bytes of which the last is the window\'s', words(1, 20, AT, 0x8000, 0x4000) + unload() + bytes(0xBFC8), *ONE_UNLOAD)
    case('19 bytes of a good file', session([], b'')[:19])


def counts():
    """At most 64 steps, and a window of at most 32,768 bytes."""
    case('no steps', session([]), *NONE)
    lines = ['%d unload 0 0' % k for k in range(1, 65)]
    case('64 steps', session([unload()] * 64), 'session 64', *lines, 'missing 0')
    case('65 steps', session([unload()] * 65))
    case('2^32 - 1 steps', session([unload()], count=TOP))
    case('2^31 steps', session([unload()], count=0x80000000))
    case('119,304,648 steps, whose bytes are 32 if counted in 32 bits', session([unload()], count=119304648))
    case('a window of 32,767 bytes: the steps answer 3', session([unload()], bytes(32767)), 'session 1', '1 unload 3 0', 'missing 0')
    case('a window of 32,768 bytes', session([unload()], bytes(32768)), *ONE_UNLOAD)
    case('a window of 32,769 bytes', session([unload()], bytes(32769)))
    case('a window of 36,864 bytes, whole pages', session([unload()], bytes(36864)))
    case('a window of 2^32 - 4,096 bytes', session([unload()], length=0xFFFFF000))
    case('64 modules stand', session([load(level=0)] * 64, image()), 'session 64', *['%d load 0 0' % k for k in range(1, 65)],
         *['module 100000 1000 1 0 0 0'] * 64, 'missing 0')


def tables():
    """The step table inside the file."""
    swapped = words(1, 20 + PAGE, AT, PAGE, 20) + bytes(PAGE) + unload()
    case('the step table ends where the file does', swapped, *ONE_UNLOAD)
    case('it ends one byte past the file', swapped[:-1])
    case('it begins one byte later, so its end is one past the file\'s', words(1, 21 + PAGE, AT, PAGE, 20) + bytes(PAGE) + unload())
    case('it ends one byte before the file\'s end', swapped + b'\xff', *ONE_UNLOAD)
    case('64 steps of which the last is one byte past the file', session([unload()] * 64, b'', offset=20)[:-1])
    case('it begins at 2^32 - 36: its end is 0 in 32 bits', session([unload()], table=0xFFFFFFDC))
    case('it begins at 2^32 - 16: its end is 20 in 32 bits', session([unload()], table=0xFFFFFFF0))
    case('it begins at 2^32 - 1', session([unload()], table=TOP))
    case('it begins at 2^31', session([unload()], table=0x80000000))
    case('no steps, at the end of a file of 20 bytes', words(0, 20, AT, 0, 0), *NONE)
    case('no steps, one past it', words(0, 21, AT, 0, 0))
    case('no steps, at 99 in a file of 20 bytes', words(0, 99, AT, 0, 0))
    case('no steps, at 2^32 - 1', words(0, TOP, AT, 0, 0))
    case('it begins at 21: no whole words are asked', words(1, 21, AT, PAGE, 57) + b'\xff' + unload() + bytes(PAGE), *ONE_UNLOAD)
    odd = words(3, 23, AT, PAGE, 131) + b'\1\2\3' + b''.join(EXAMPLE_STEPS) + image()
    case('the example with its steps at 23 and its window at 131', odd, *EXAMPLE)
    case('the header is the first step too: 1 is the count and the call', words(1, 0, 0x1234, 0, 0, 0, 0, 0, 0),
         'session 1', '1 initialize 3 0', 'missing 0')
    case('the header as step: its window\'s length is an unused word', words(1, 0, AT, 4, 0, 0, 0, 0, 0))


def windows():
    """The window's bytes inside the file."""
    whole = session([load()], image())
    case('the window ends where the file does', whole, *LOADED)
    case('it ends one byte past the file', whole[:-1])
    case('it begins one byte later, so its end is one past the file\'s', session([load()], image(), offset=57))
    case('it ends one byte before the file\'s end', whole + b'\xff', *LOADED)
    case('it begins at 2^32 - 4,096: its end is 0 in 32 bits', session([unload()], offset=0xFFFFF000))
    case('it begins at 2^32 - 4,076: its end is 20 in 32 bits', session([unload()], offset=0xFFFFF014))
    case('a byte at 2^32 - 1: its end is 0 in 32 bits', session([unload()], b'', length=1, offset=TOP))
    case('no bytes, at the end of a file of 20 bytes', words(0, 20, AT, 0, 20), *NONE)
    case('no bytes, one past it', words(0, 20, AT, 0, 21))
    case('no bytes, at 2^32 - 1', words(0, 20, AT, 0, TOP))
    inside = words(3, 20, AT, PAGE, 0) + b''.join(EXAMPLE_STEPS) + image()[128:]
    case('the example in a window that is the whole file: header and steps lie before the magic', inside, *EXAMPLE)
    case('the window\'s bytes are the steps and what follows', words(1, 20, AT, PAGE, 20) + unload() + bytes(PAGE), *ONE_UNLOAD)


def calls():
    """Calls 1 to 3, judged before any of them is made."""
    case('call 1', session([initialize()], image()), 'session 1', '1 initialize 0 0', 'module 100000 1000 1 0 0 0', 'missing 0')
    case('call 2', session([load()], image()), *LOADED)
    case('call 3', session([unload()], image()), *ONE_UNLOAD)
    for call in (0, 4, TOP, 0x101, 0x02000000, 0x80000003):
        case('call 0x%x' % call, session([words(call, AT, 0, 0, 0, 0, 0, 0, 0)]))
    case('a bad call in the last of three steps: no line but one', session([load(), unload(), words(4, *[0] * 8)], image()))
    case('a bad call in the first of three steps', session([words(0, *[0] * 8), load(), unload()], image()))
    case('a bad call after the last step is not a step', session([unload(), words(9, *[9] * 8)], count=1), *ONE_UNLOAD)


def unused():
    """Six unused words of initialize, seven of unload, none of load."""
    names = ['size', 'data', 'data size', 'bss', 'bss size', 'auto-link', 'fix level']
    for k, name in enumerate(names):
        if k > 0:
            step = [1, AT, PAGE, 0, 0, 0, 0, 0, 0]
            step[2 + k] = 1
            case('initialize with a %s' % name, session([words(*step)], image()))
        step = [3, AT, 0, 0, 0, 0, 0, 0, 0]
        step[2 + k] = PAGE if k == 0 else 1
        case('unload with a %s' % name, session([words(*step)], image()))
    case('initialize with a fix level of 2^31', session([words(1, AT, PAGE, 0, 0, 0, 0, 0, 0x80000000)], image()))
    case('unload with a size of 2^24', session([words(3, AT, 0x1000000, 0, 0, 0, 0, 0, 0)], image()))
    case('the unload of the last step has a fix level: the load before it is not made', session([load(), words(3, AT, 0, 0, 0, 0, 0, 0, 1)], image()))
    case('load with all its words', session([load(AT, PAGE, 1, 2, 3, 4, 5, 6)], image()), 'session 1', '1 load 0 0',
         'module 100000 1000 1 0 0 0', 'missing 0')


def refused_windows():
    """Number 3 is no bad file."""
    def three(reason, window, at):
        case(reason, session([initialize(), load(), unload()], window, at), 'session 3', '1 initialize 3 0', '2 load 3 0',
             '3 unload 3 0', 'missing 0')
    three('a window of no bytes', b'', AT)
    three('a window of 4,095 bytes', image()[:-1], AT)
    three('a window of 4,097 bytes', image() + b'\0', AT)
    three('a window of 2,048 bytes', image()[:0x800], AT)
    three('a window at an address that is no whole page', image(), AT + 0x800)
    three('a window at an odd address', image(), AT + 1)
    three('a window that ends past 2^32', image() + bytes(PAGE), 0xFFFFF000)
    case('a window that ends at 2^32', session([load(0xFFFFF000)], image(), 0xFFFFF000), 'session 1', '1 load 0 1000',
         'module fffff000 1000 1 0 0 0', 'missing 0')
    case('a window at address 0, and a base of 0', session([load(0)], image(), 0), 'session 1', '1 load 0 1000',
         'module 0 1000 1 0 0 0', 'missing 0')


def refused_images():
    """Numbers 1 and 2."""
    case('document 01\'s example', session(EXAMPLE_STEPS, image()), *EXAMPLE)
    case('a zero page', session([initialize(), load(), unload()]), 'session 3', '1 initialize 1 0', '2 load 1 0', '3 unload 0 0', 'missing 0')
    case('a base outside the window reads as zeros', session([load(0x40000000)], image()), 'session 1', '1 load 1 0', 'missing 0')
    case('the magic CRO1', session([load()], image(magic=b'CRO1')), 'session 1', '1 load 1 0', 'missing 0')
    case('the magic CRS0', session([load()], image(magic=b'CRS0')), *LOADED)

    def segment(reason, entry, lent, number):
        file = session([load(AT, PAGE, *lent)], image({0x0C8: 0x140, 0x0CC: 1, 0x140: words(*entry)}))
        case(reason, file, *(LOADED if number == 0 else ['session 1', '1 load 2 0', 'missing 0']))
    segment('Data of 16 bytes, 16 lent', (0x200, 16, 2), (AT + 0x800, 16), 0)
    segment('Data of 17 bytes, 16 lent', (0x200, 17, 2), (AT + 0x800, 16), 2)
    segment('Bss of 16 bytes, 16 lent', (0, 16, 3), (0, 0, AT + 0x800, 16), 0)
    segment('Bss of 17 bytes, 16 lent', (0, 17, 3), (0, 0, AT + 0x800, 16), 2)
    segment('kind 7 is Bss: 17 bytes, 16 lent', (0, 17, 7), (0, 0, AT + 0x800, 16), 2)
    segment('code that begins at the image\'s end', (0x1000, 16, 0), (), 0)
    segment('code that begins one byte past it', (0x1001, 16, 0), (), 2)
    case('a bad segment is no matter for initialize', session([initialize()], image({0x0C8: 0x140, 0x0CC: 1, 0x140: words(0, 17, 2)})),
         'session 1', '1 initialize 0 0', 'module 100000 1000 1 0 0 0', 'missing 0')


def room():
    """Number 5, from both sides: the records and the names have 16,384 bytes each."""
    def indexed(count):
        return image({0x0D8: 0x200, 0x0DC: count})
    full = 'module 100000 1000 1 0 4080 0'
    case('32 + 32 + 4 * 4,080 record bytes', session([load()], indexed(4080)), 'session 1', '1 load 0 1000', full, 'missing 0')
    case('4 record bytes more', session([load()], indexed(4081)), 'session 1', '1 load 5 0', 'missing 0')
    case('initialize with 4 record bytes more', session([initialize()], indexed(4081)), 'session 1', '1 initialize 5 0', 'missing 0')

    # 33 exports are the ends of a string, of 512 to 480 bytes, 16,368 in all
    def named(length):
        entries = [(0x400 + k, 0) for k in range(33)]
        return image(exporting(entries, {0x0C0: 0x600 - length, 0x0C4: 1, 0x400: b'x' * 512}))
    lines = ['session 1', '1 load 0 1000', 'module 100000 1000 1 33 0 16 ' + '78' * 16, 'missing 0']
    case('16,368 name bytes of exports and 16 of the module', session([load()], named(16)), *lines)
    case('a name byte more', session([load()], named(17)), 'session 1', '1 load 5 0', 'missing 0')


def texts():
    """What is printed."""
    def module(reason, fields, line, **more):
        case(reason, session([load(**more)], image(fields)), 'session 1', '1 load 0 1000', line, 'missing 0')

    def fixed(reason, fields, size, level, value):
        case(reason, session([load(size=size, level=level)], image(fields, size=2 * PAGE)), 'session 1', '1 load 0 ' + value,
             'module 100000 %x 1 0 0 0' % size, 'missing 0')
    module('auto-link 2 counts and prints as 1', {}, 'module 100000 1000 1 0 0 0', auto=2)
    module('auto-link 2^31 too', {}, 'module 100000 1000 1 0 0 0', auto=0x80000000)
    module('no auto-link', {}, 'module 100000 1000 0 0 0 0', auto=0)
    module('a size of 2^32 - 1', {}, 'module 100000 ffffffff 1 0 0 0', size=TOP)
    module('a name with a line feed and bytes from 0x80 on', {0x0C0: 0x150, 0x150: b'a\n\x80\xff\x01'}, 'module 100000 1000 1 0 0 5 610a80ff01')
    module('a name of one byte', {0x0C0: 0x150, 0x150: b'\x0f'}, 'module 100000 1000 1 0 0 1 0f')
    module('a name of no bytes, at an address', {0x0C0: 0x150}, 'module 100000 1000 1 0 0 0')
    module('a name of 513 bytes is cut', {0x0C0: 0x150, 0x150: b'N' * 513}, 'module 100000 1000 1 0 0 512 ' + '4e' * 512)
    module('three named exports of which two have one name and one no usable tag',
           exporting([(0x1A0, 0), (0x1A0, 0x10), (0x1A4, 0x100)], {0x1A0: b'f', 0x1A4: b'g'}), 'module 100000 1000 1 1 0 0')
    module('twelve indexed exports in decimal', {0x0D8: 0x200, 0x0DC: 12}, 'module 100000 1000 1 0 12 0')
    fixed('a fixed size in lower-case hex without leading zeros', {}, 0xABC, 1, 'abc')
    fixed('length 0x1001, size 0x1800', {0x0B4: 0x1001 - 0x138}, 0x1800, 1, '1800')
    fixed('length 0x1001, size 0x3000', {0x0B4: 0x1001 - 0x138}, 0x3000, 2, '2000')
    fixed('length 0x1000, size 0x3000', {0x0B4: 0x1000 - 0x138}, 0x3000, 3, '1000')
    fixed('a size of 0', {}, 0, 1, '0')
    fixed('fix level 0', {}, PAGE, 0, '0')
    fixed('fix level 4', {}, PAGE, 4, '0')
    fixed('fix level 2^32 - 1', {}, PAGE, TOP, '0')


def runs():
    """Several steps."""
    one = 'module 100000 1000 1 0 0 0'
    case('initialize twice adds a second record', session([initialize(), initialize()], image()), 'session 2', '1 initialize 0 0',
         '2 initialize 0 0', one, one, 'missing 0')
    case('load and unload', session([load(), unload()], image()), 'session 2', '1 load 0 1000', '2 unload 0 1', 'missing 0')
    case('unload of an unknown base', session([load(), unload(AT + 4)], image()), 'session 2', '1 load 0 1000', '2 unload 0 0', one, 'missing 0')
    case('two records of one base leave one by one', session([load(level=0)] * 2 + [unload()] * 3, image()), 'session 5', '1 load 0 0',
         '2 load 0 0', '3 unload 0 1', '4 unload 0 1', '5 unload 0 0', 'missing 0')
    two = image() + image({0x0C0: 0x150, 0x150: b'two'})
    case('modules in load order, not by address', session([load(AT + PAGE), load()], two), 'session 2', '1 load 0 1000', '2 load 0 1000',
         'module 101000 1000 1 0 0 3 74776f', one, 'missing 0')
    case('the first leaves, the second stays', session([load(), load(AT + PAGE, auto=0), unload()], two), 'session 3', '1 load 0 1000',
         '2 load 0 1000', '3 unload 0 1', 'module 101000 1000 0 0 0 3 74776f', 'missing 0')
    full = image({0x0D8: 0x200, 0x0DC: 4080}) + image()
    case('no record bytes are free, and they are after an unload', session([load(), load(AT + PAGE), unload(), load(AT + 0x1000)], full), 'session 4',
         '1 load 0 1000', '2 load 5 0', '3 unload 0 1', '4 load 0 1000', 'module 101000 1000 1 0 0 0', 'missing 0')
    case('the static module leaves, its base stays', session([initialize(), unload(), unload()], image()), 'session 3', '1 initialize 0 0',
         '2 unload 0 1', '3 unload 0 0', 'missing 0')


def missing():
    """The missing names."""
    def names(reason, fields, *lines):
        case(reason, session([load()], image(fields)), *LOADED[:3], *lines)
    names('two missing names, one with a line feed and 0xff', importing([0x1A0, 0x1A8], {0x1A0: b'\x0a\xff', 0x1A8: b'zz'}),
          'missing 2', '2 0aff', '2 7a7a')
    names('an empty missing name, at address 0', importing([0]), 'missing 1', '0')
    names('an empty missing name, at a zero', importing([0x1A0]), 'missing 1', '0')
    names('one name three times', importing([0x1A0] * 3, {0x1A0: b'n'}), 'missing 3', *['1 6e'] * 3)
    names('64 missing names', importing([0x800] * 64, {0x800: b'n'}), 'missing 64', *['1 6e'] * 64)
    names('65 of which the last is not kept', importing([0x800] * 64 + [0x804], {0x800: b'n', 0x804: b'last'}), 'missing 64', *['1 6e'] * 64)
    names('a missing name of 513 bytes is cut', importing([0x1A0], {0x1A0: b'q' * 513}), 'missing 1', '512 ' + '71' * 512)
    names('an import without a batch is not missing', importing([0x1A0], {0x1A0: b'n'}, batch=0), 'missing 0')
    case('a missing name stays when its module leaves', session([load(), unload()], image(importing([0x1A0], {0x1A0: b'n'}))), 'session 2',
         '1 load 0 1000', '2 unload 0 1', 'missing 1', '1 6e')
    pair = image(exporting([(0x1A0, 0)], {0x1A0: b'f'})) + image(importing([0x1A0], {0x1A0: b'f'}))
    lines = ['module 100000 1000 1 1 0 0', 'module 101000 1000 1 0 0 0']
    case('an import that a module provides is not missing', session([load(), load(AT + PAGE)], pair), 'session 2', '1 load 0 1000',
         '2 load 0 1000', *lines, 'missing 0')
    case('provided only later, it stays missing', session([load(AT + PAGE), load()], pair), 'session 2', '1 load 0 1000', '2 load 0 1000',
         *reversed(lines), 'missing 1', '1 66')
    case('provided by a module without auto-link, it is missing', session([load(auto=0), load(AT + PAGE)], pair), 'session 2', '1 load 0 1000',
         '2 load 0 1000', 'module 100000 1000 0 1 0 0', lines[1], 'missing 1', '1 66')


GROUPS = [lengths, counts, tables, windows, calls, unused, refused_windows, refused_images, room, texts, runs, missing]


# --- The stored files.

def pieces(file):
    """Runs of words that are not 0, with gaps of at most two words in them, as (offset, bytes)."""
    found = []
    for at in range(0, len(file), 4):
        if any(file[at:at + 4]):
            if found and at - found[-1][1] <= 8:
                found[-1][1] = at + 4
            else:
                found.append([at, at + 4])
    return [(start, file[start:end]) for start, end in found]


def stored(file):
    parts = pieces(file)
    data = words(len(file), len(parts))
    for at, part in parts:
        data += words(at, len(part)) + part + bytes(-len(part) % 4)
    return data


def read_stored():
    """The stored cases as they are: their words, and their texts."""
    data, at, cases = open(FOLDER + 'stdin', 'rb').read(), 4, []
    texts = re.split(r'^case \d+\n', open(FOLDER + 'stdout').read(), flags=re.M)[1:]
    for text in texts:
        start = at
        count = struct.unpack_from('<I', data, at + 4)[0]
        at += 8
        for _ in range(count):
            at += 8 + (struct.unpack_from('<I', data, at + 4)[0] + 3) // 4 * 4
        cases.append((data[start:at], text))
    return cases


def numbers(text):
    return set(re.findall(r'^\d+ \w+ (\d)', text, re.M))


def main():
    kept = [('from the Rust',) + both for both in read_stored()[:FROM_THE_RUST]]
    if len(kept) < FROM_THE_RUST:
        sys.exit('of the %d sessions from the Rust only %d are stored' % (FROM_THE_RUST, len(kept)))
    for group in GROUPS:
        group()
    cases = kept + [(reason, stored(file), text) for reason, file, text in CASES]
    with open(FOLDER + 'stdin', 'wb') as out:
        out.write(words(len(cases)) + b''.join(data for _, data, _ in cases))
    with open(FOLDER + 'stdout', 'w') as out:
        out.write(''.join('case %d\n%s' % (k + 1, text) for k, (_, _, text) in enumerate(cases)))
    if '--list' in sys.argv:
        for k, (reason, data, text) in enumerate(cases):
            print('%d %s: %s' % (k + 1, reason, 'bad' if text == BAD else 'numbers ' + ' '.join(sorted(numbers(text)))))
    tally = collections.Counter('bad' if text == BAD else 'run' for _, _, text in cases)
    print('%d cases: %d from the Rust, %d by hand; %d bad files' % (len(cases), len(kept), len(CASES), tally['bad']))


if __name__ == '__main__':
    main()
