#!/usr/bin/env python3
"""Descriptions of modules, of which the program `image` makes CRO images, and module texts, which people write. docs/IMAGE.md says what both
hold.

    tools/image.py describe TEXT FILE   makes the description that a text asks for
    tools/image.py print FILE           prints a description, or an image that was made of one, as a text that makes the same

What is wrong with a text goes to standard error with its line, and the exit status is 1. Whether a description makes an image is
not judged here: the proved writer does that.
"""
import re
import struct
import sys

HEADER = 0x138
MAGIC, NAME, LENGTH, BSS, TAGS, HANDLER, CODE, DATA = 0x080, 0x084, 0x090, 0x094, 0x0A0, 0x0AC, 0x0B0, 0x0B8
MODULE_NAME, SEGMENTS, EXPORTS, INDEXED_EXPORTS, EXPORT_STRINGS, EXPORT_TREE = 0x0C0, 0x0C8, 0x0D0, 0x0D8, 0x0E0, 0x0E8
MODULES, EXTERNAL, IMPORTS, INDEXED, ANONYMOUS, IMPORT_STRINGS = 0x0F0, 0x0F8, 0x100, 0x108, 0x110, 0x118
STATIC_ANONYMOUS, INTERNAL, STATIC_RELOCATIONS = 0x120, 0x128, 0x130
KINDS = ['code', 'readonly', 'data', 'bss']
LONGEST_BATCH = 0x1001


class Wrong(Exception):
    """What is wrong with a text, or with bytes that are no description."""


class Module:
    """A module's parts. A segment is a kind, 0 to 3, and its bytes, or of kind 3 its size; a place is (segment, offset); a patch is
    (place, kind, addend); an import is what it asks for and its patches."""

    def __init__(self):
        self.name = b''
        self.segments = []
        self.tags = [0, 0, 0]
        self.handler = (0, 0)
        self.exports = []    # (name, place)
        self.indexed = []    # place
        self.imports = []    # (name, patches)
        self.modules = []    # (name, [(index, patches)], [(place, patches)])
        self.relocations = []  # (patch, symbol's segment)


# --- A description from its parts: the order and the padding are those of docs/IMAGE.md.

class Packer:
    def __init__(self):
        self.bytes = bytearray(HEADER)

    def put(self, at, *words):
        struct.pack_into('<%dI' % len(words), self.bytes, at, *words)

    def room(self, size):
        """So many bytes from the next multiple of 4 on."""
        start = -(-len(self.bytes) // 4) * 4
        self.bytes.extend(bytes(start + size - len(self.bytes)))
        return start

    def part(self, field, width, count):
        start = self.room(width * count)
        self.put(field, start, count)
        return start

    def strings(self, field, names):
        at = self.part(field, 1, sum(len(name) + 1 for name in names))
        pointers = []
        for name in names:
            self.bytes[at:at + len(name)] = name
            pointers.append(at)
            at += len(name) + 1
        return pointers

    def patch(self, at, patch, byte):
        place, kind, addend = patch
        self.put(at, word_of(place), kind | byte << 8, addend)


def word_of(place):
    return place[1] << 4 | place[0]


def pack(module):
    """The description of a module."""
    out = Packer()
    offsets = [put_segment(out, kind, content) for kind, content in module.segments]
    put_header(out, module, offsets)
    name = out.strings(MODULE_NAME, [module.name])[0]
    out.put(NAME, name)
    table = out.part(SEGMENTS, 12, len(module.segments))
    for number, (kind, content) in enumerate(module.segments):
        out.put(table + 12 * number, offsets[number], size_of(kind, content), kind)
    put_exports(out, module)
    put_imports(out, module)
    out.part(STATIC_ANONYMOUS, 8, 0)
    table = out.part(INTERNAL, 12, len(module.relocations))
    for number, (patch, symbol) in enumerate(module.relocations):
        out.patch(table + 12 * number, patch, symbol)
    out.part(STATIC_RELOCATIONS, 12, 0)
    return bytes(out.bytes)


def size_of(kind, content):
    return content if kind == 3 else len(content)


def put_segment(out, kind, content):
    if kind == 3:
        return 0
    start = out.room(len(content))
    out.bytes[start:] = content
    return start


def put_header(out, module, offsets):
    """Tags, and the pairs of the first code and data segment; the Bss size is that of the first Bss segment."""
    out.put(TAGS, *module.tags, word_of(module.handler))
    for (kind, content), offset in reversed(list(zip(module.segments, offsets))):
        if kind == 0:
            out.put(CODE, offset, len(content))
        if kind == 2:
            out.put(DATA, offset, len(content))
        if kind == 3:
            out.put(BSS, content)


def put_exports(out, module):
    table = out.part(EXPORTS, 8, len(module.exports))
    indexed = out.part(INDEXED_EXPORTS, 4, len(module.indexed))
    out.put(indexed, *[word_of(place) for place in module.indexed])
    pointers = out.strings(EXPORT_STRINGS, [name for name, _ in module.exports])
    for number, (_, place) in enumerate(module.exports):
        out.put(table + 8 * number, pointers[number], word_of(place))
    out.part(EXPORT_TREE, 8, 0)


def put_imports(out, module):
    indexed = [item for _, items, _ in module.modules for item in items]
    anonymous = [(word_of(place), patches) for _, _, items in module.modules for place, patches in items]
    entries = out.part(MODULES, 20, len(module.modules))
    batch = out.part(EXTERNAL, 12, sum(len(patches) for _, patches in module.imports + indexed + anonymous))
    tables = [out.part(field, 8, len(items)) for field, items in ((IMPORTS, module.imports), (INDEXED, indexed), (ANONYMOUS, anonymous))]
    names = [name for name, _, _ in module.modules] + [name for name, _ in module.imports]
    pointers = out.strings(IMPORT_STRINGS, names)
    runs = tables[1:]
    for number, (_, by_index, by_place) in enumerate(module.modules):
        out.put(entries + 20 * number, pointers[number], runs[0], len(by_index), runs[1], len(by_place))
        runs = [runs[0] + 8 * len(by_index), runs[1] + 8 * len(by_place)]
    named = [(pointer, patches) for pointer, (_, patches) in zip(pointers[len(module.modules):], module.imports)]
    for table, items in zip(tables, (named, indexed, anonymous)):
        for number, (wanted, patches) in enumerate(items):
            out.put(table + 8 * number, wanted, batch)
            for k, patch in enumerate(patches):
                out.patch(batch, patch, int(k + 1 == len(patches)))
                batch += 12


# --- The parts of a description.

class Unpacker:
    def __init__(self, data):
        self.data = data

    def part(self, at, size):
        if at + size > len(self.data):
            raise Wrong('offset %#x and %#x bytes from there: the description ends at %#x' % (at, size, len(self.data)))
        return self.data[at:at + size]

    def words(self, at, count):
        return struct.unpack('<%dI' % count, self.part(at, 4 * count))

    def table(self, field, width):
        start, count = self.words(field, 2)
        self.part(start, width * count)
        return range(start, start + width * count, width)

    def name(self, at):
        end = self.data.find(b'\0', at)
        if end < 0:
            raise Wrong('offset %#x: a name without a zero' % at)
        return self.data[at:end]

    def patch(self, at):
        tag, second, addend = self.words(at, 3)
        return ((place_of(tag), second & 255, addend), second >> 8 & 255)

    def batch(self, at):
        patches = []
        while len(patches) < LONGEST_BATCH:
            patch, mark = self.patch(at + 12 * len(patches))
            patches.append(patch)
            if mark:
                return patches
        raise Wrong('offset %#x: a batch of more than %d entries' % (at, LONGEST_BATCH))

    def run(self, at, wanted):
        start, count = self.words(at, 2)
        self.part(start, 8 * count)
        items = (self.words(start + 8 * k, 2) for k in range(count))
        return [(wanted(word), self.batch(batch)) for word, batch in items]


def place_of(word):
    return (word & 15, word >> 4)


def unpack(data):
    """The parts of a description that `pack` made."""
    read, module = Unpacker(data), Module()
    module.name = read.name(read.words(MODULE_NAME, 1)[0])
    for entry in read.table(SEGMENTS, 12):
        offset, size, kind = read.words(entry, 3)
        module.segments.append((kind, read.part(offset, size)) if kind < 3 else (3, size))
    *module.tags, handler = read.words(TAGS, 4)
    module.handler = place_of(handler)
    for entry in read.table(EXPORTS, 8):
        pointer, tag = read.words(entry, 2)
        module.exports.append((read.name(pointer), place_of(tag)))
    module.indexed = [place_of(read.words(entry, 1)[0]) for entry in read.table(INDEXED_EXPORTS, 4)]
    for entry in read.table(IMPORTS, 8):
        pointer, batch = read.words(entry, 2)
        module.imports.append((read.name(pointer), read.batch(batch)))
    for entry in read.table(MODULES, 20):
        name = read.name(read.words(entry, 1)[0])
        module.modules.append((name, read.run(entry + 4, lambda word: word), read.run(entry + 12, place_of)))
    module.relocations = [read.patch(entry) for entry in read.table(INTERNAL, 12)]
    if pack(module) != data:
        raise Wrong('another tool packed this: its parts do not make the same bytes again')
    return module


def description_of(data):
    """The description that an image was made of; a description itself is given back."""
    if len(data) < HEADER or data[MAGIC:MAGIC + 4] != b'CRO0':
        return data
    end = struct.unpack_from('<I', data, STATIC_RELOCATIONS)[0]
    whole = bytearray(data[:end].ljust(HEADER, b'\0'))
    whole[MAGIC:MAGIC + 4] = whole[LENGTH:LENGTH + 4] = bytes(4)
    return bytes(whole)


# --- Texts.

def number(word, most=0xFFFFFFFF):
    if not re.fullmatch(r'0x[0-9A-Fa-f]+|[0-9]+', word):
        raise Wrong('%s: a number is wanted' % word)
    value = int(word, 0)
    if value > most:
        raise Wrong('%s: at most %#x is wanted' % (word, most))
    return value


def place(word):
    segment, colon, offset = word.partition(':')
    if not colon:
        raise Wrong('%s: a place is wanted, SEGMENT:OFFSET' % word)
    return (number(segment, 15), number(offset, 0x0FFFFFFF))


def name(word):
    """A name is a word as it stands, or in double quotes with \\xHH for any byte, \\" and \\\\."""
    if not word.startswith('"'):
        return word.encode()
    inner = word[1:-1]
    if len(word) < 2 or not word.endswith('"') or not re.fullmatch(r'(?:[^"\\]|\\x[0-9A-Fa-f]{2}|\\["\\])*', inner):
        raise Wrong('%s: no name' % word)
    pieces = re.findall(r'\\x([0-9A-Fa-f]{2})|\\(["\\])|([^"\\])', inner)
    return b''.join(bytes([int(code, 16)]) if code else (mark or plain).encode() for code, mark, plain in pieces)


def shown_name(data):
    if re.fullmatch(rb'[!$-~]+', data):
        return data.decode()
    return '"%s"' % ''.join('\\' + chr(b) if chr(b) in '"\\' else chr(b) if 32 <= b < 127 else '\\x%02x' % b for b in data)


def content(kind, words):
    """A segment's bytes: hex, `zeros N`, or of bss its size."""
    if kind == 3:
        if len(words) != 1:
            raise Wrong('segment bss SIZE')
        return number(words[0])
    if words[:1] == ['zeros'] and len(words) == 2:
        return bytes(number(words[1], 0x1000000))
    digits = ''.join(words)
    if len(digits) % 2 or not re.fullmatch(r'[0-9A-Fa-f]*', digits):
        raise Wrong('segment %s: pairs of hex digits, or zeros SIZE' % KINDS[kind])
    return bytes.fromhex(digits)


def read_patch(words):
    """PLACE KIND [ADDEND]"""
    if len(words) not in (2, 3):
        raise Wrong('PLACE KIND [ADDEND] is wanted')
    return (place(words[0]), number(words[1], 255), number(words[2]) if len(words) == 3 else 0)


class Reader:
    """Reads a text line by line; `patches` is where a line `patch` goes, and `module` the one that `index` and `place` go to."""

    def __init__(self):
        self.made, self.patches, self.module = Module(), None, None

    def one(self, words, what):
        if len(words) != 1:
            raise Wrong('%s is wanted' % what)
        return words[0]

    def line(self, words):
        read = getattr(self, 'read_' + words[0], None)
        if read is None:
            raise Wrong('%s: no such line' % words[0])
        read(words[1:])

    def read_module(self, words):
        self.made.name = name(self.one(words, 'module NAME'))

    def read_segment(self, words):
        if not words or words[0] not in KINDS:
            raise Wrong('segment code, readonly, data or bss')
        kind = KINDS.index(words[0])
        self.made.segments.append((kind, content(kind, words[1:])))

    def read_tags(self, words):
        if len(words) != 3:
            raise Wrong('tags WORD WORD WORD')
        self.made.tags = [number(word) for word in words]

    def read_handler(self, words):
        self.made.handler = place(self.one(words, 'handler PLACE'))

    def read_export(self, words):
        if len(words) != 2:
            raise Wrong('export NAME PLACE')
        self.made.exports.append((name(words[0]), place(words[1])))

    def read_indexed(self, words):
        self.made.indexed.append(place(self.one(words, 'indexed PLACE')))

    def read_import(self, words):
        self.patches = []
        self.made.imports.append((name(self.one(words, 'import NAME')), self.patches))

    def read_from(self, words):
        self.patches, self.module = None, (name(self.one(words, 'from MODULE')), [], [])
        self.made.modules.append(self.module)

    def of_module(self, kind, wanted):
        if self.module is None:
            raise Wrong('this comes after a line `from`')
        self.patches = []
        self.module[kind].append((wanted, self.patches))

    def read_index(self, words):
        self.of_module(1, number(self.one(words, 'index NUMBER')))

    def read_place(self, words):
        self.of_module(2, place(self.one(words, 'place PLACE')))

    def read_patch(self, words):
        if self.patches is None:
            raise Wrong('a patch comes after a line `import`, `index` or `place`')
        self.patches.append(read_patch(words))

    def read_relocate(self, words):
        if len(words) < 3:
            raise Wrong('relocate SEGMENT PLACE KIND [ADDEND]')
        self.made.relocations.append((read_patch(words[1:]), number(words[0], 255)))


def words_of(line):
    """The words of a line; a name in quotes is one, and # starts a comment."""
    return re.findall(r'"(?:[^"\\]|\\.)*"?|[^\s"#]+', re.sub(r'("(?:[^"\\]|\\.)*")|#.*', lambda found: found.group(1) or '', line))


def read_text(text):
    """The module that a text describes."""
    reader = Reader()
    for at, line in enumerate(text.splitlines(), 1):
        words = words_of(line)
        try:
            if words:
                reader.line(words)
        except Wrong as wrong:
            raise Wrong('line %d: %s' % (at, wrong))
    return reader.made


def shown_place(at):
    return '%d:%#x' % at if at[1] else '%d:0' % at[0]


def shown_patch(patch):
    at, kind, addend = patch
    return '%s %d' % (shown_place(at), kind) + (' %#x' % addend if addend else '')


def shown_import(indent, line, patches):
    return [indent + line] + [indent + '  patch ' + shown_patch(patch) for patch in patches]


def show(module):
    """A text that makes the module."""
    lines = ['module ' + shown_name(module.name)]
    for kind, held in module.segments:
        shown = str(held) if kind == 3 else 'zeros %d' % len(held) if held and not any(held) else held.hex(' ', 4)
        lines.append(('segment %s %s' % (KINDS[kind], shown)).rstrip())
    if any(module.tags):
        lines.append('tags ' + ' '.join('%#x' % tag for tag in module.tags))
    lines.append('handler ' + shown_place(module.handler))
    lines += ['export %s %s' % (shown_name(text), shown_place(at)) for text, at in module.exports]
    lines += ['indexed ' + shown_place(at) for at in module.indexed]
    for text, patches in module.imports:
        lines += shown_import('', 'import ' + shown_name(text), patches)
    for text, by_index, by_place in module.modules:
        lines.append('from ' + shown_name(text))
        for wanted, patches in by_index:
            lines += shown_import('  ', 'index %d' % wanted, patches)
        for wanted, patches in by_place:
            lines += shown_import('  ', 'place ' + shown_place(wanted), patches)
    lines += ['relocate %d %s' % (symbol, shown_patch(patch)) for patch, symbol in module.relocations]
    return '\n'.join(lines) + '\n'


def main(words):
    if words[:1] == ['describe'] and len(words) == 3:
        with open(words[1], encoding='utf-8') as text:
            description = pack(read_text(text.read()))
        with open(words[2], 'wb') as out:
            out.write(description)
    elif words[:1] == ['print'] and len(words) == 2:
        with open(words[1], 'rb') as file:
            sys.stdout.write(show(unpack(description_of(file.read()))))
    else:
        sys.exit(__doc__.strip())


if __name__ == '__main__':
    try:
        main(sys.argv[1:])
    except (Wrong, OSError, UnicodeDecodeError, struct.error) as wrong:
        sys.exit('%s: %s' % (sys.argv[2] if len(sys.argv) > 2 else 'tools/image.py', wrong))
