#!/usr/bin/env python3
"""Session files, which the session program reads, and session texts, which people write. docs/SESSION.md says what both hold.

    tools/session.py make TEXT FILE   makes the session file that a text asks for
    tools/session.py print FILE       prints a session file as a text that makes the same file
    tools/session.py check FILE       says what is wrong with a text or a session file; a window of no whole pages is said too
    tools/session.py is-text FILE     exit status 0 if it is a text, 1 if it is a session file

A text's first line is `session`; every other file is taken for a session file. No good session file starts so: its first
word is at most 64. What is wrong goes to standard error, with exit status 1: the line of a text, or each word of a session
file for which the session program prints `session bad`.
"""
import codecs
import os
import re
import struct
import sys

MOST_STEPS = 64
LONGEST_WINDOW = 32768
LONGEST_FILE = 49152
HEAD_BYTES = 20
STEP_BYTES = 36
PAGE = 4096
TOP = 0xFFFFFFFF

HEAD_WORDS = ['step count', 'step table offset', 'window address', 'window length', 'offset of the window\'s bytes']
STEP_WORDS = ['call', 'base', 'size', 'data_segment', 'data_segment_size', 'bss_segment', 'bss_segment_size', 'auto_link', 'fix_level']
CALLS = [None, 'initialize', 'load', 'unload']
USED = {'initialize': STEP_WORDS[1:3], 'load': STEP_WORDS[1:], 'unload': STEP_WORDS[1:2]}
NEEDED = {'initialize': ['base', 'size'], 'load': ['base', 'size'], 'unload': ['base']}

# the lines of a text
NUMBER_LINES = {'window': 'window ADDRESS LENGTH', 'step_table': 'step_table OFFSET', 'window_bytes': 'window_bytes OFFSET',
                'file_length': 'file_length LENGTH'}
CONTENT_LINES = {'image': 'image ADDRESS PATH', 'bytes': 'bytes ADDRESS HEX', 'word': 'word ADDRESS WORD...',
                 'text': 'text ADDRESS CHARACTERS', 'file_bytes': 'file_bytes OFFSET HEX'}


def is_text(data):
    """Whether the first line is `session`; a mark of UTF-8 that some editors put before it is passed over."""
    return data.removeprefix(codecs.BOM_UTF8).split(b'\n', 1)[0].strip() == b'session'


def words_at(file, offset, count):
    return struct.unpack_from('<%dI' % count, file, offset)


def least_length(count, table, length, offset):
    """The bytes that a session file needs for its head, its steps and the window's bytes."""
    return max(HEAD_BYTES, table + STEP_BYTES * count, offset + length)


# --- What makes bytes no session file: crates/session/specs/File.antt, isSession.

def wrong_words(file):
    """A message for each wrong word; none if the session program takes the file. Steps are looked at if the head is right."""
    if not HEAD_BYTES <= len(file) <= LONGEST_FILE:
        return ['file length: %d bytes; it must be %d to %d' % (len(file), HEAD_BYTES, LONGEST_FILE)]
    wrong = wrong_head(file)
    if not wrong:
        count, table = words_at(file, 0, 2)
        for k in range(count):
            wrong += wrong_step(k + 1, table + STEP_BYTES * k, words_at(file, table + STEP_BYTES * k, 9))
    return wrong


def wrong_head(file):
    """Messages for the wrong words of the head. Where a part is longer than the file, its count or length is the wrong word."""
    count, table, _, length, offset = words_at(file, 0, 5)
    steps, room = STEP_BYTES * count, len(file)
    wrong = []

    def tell(index, rule):
        value = words_at(file, 4 * index, 1)[0]
        wrong.append('offset 0x%x, %s: %d (0x%x); %s' % (4 * index, HEAD_WORDS[index], value, value, rule))
    if count > MOST_STEPS:
        tell(0, 'at most %d' % MOST_STEPS)
    elif steps > room:
        tell(0, 'at most %d, since a step has %d bytes and the file %d' % (room // STEP_BYTES, STEP_BYTES, room))
    elif table + steps > room:
        tell(1, 'at most %d, so that the steps, %d bytes, end inside the file of %d' % (room - steps, steps, room))
    if length > LONGEST_WINDOW:
        tell(3, 'at most %d' % LONGEST_WINDOW)
    elif length > room:
        tell(3, 'at most %d, the length of the file' % room)
    elif offset + length > room:
        tell(4, 'at most %d, so that the window, %d bytes, ends inside the file of %d' % (room - length, length, room))
    return wrong


def wrong_step(step, at, words):
    def told(index, rule):
        return 'offset 0x%x, step %d, %s: %d (0x%x); %s' % (at + 4 * index, step, STEP_WORDS[index], words[index], words[index], rule)
    if not 1 <= words[0] <= 3:
        return [told(0, 'it must be 1 (initialize), 2 (load) or 3 (unload)')]
    call = CALLS[words[0]]
    unused = range(1 + len(USED[call]), 9)
    return [told(index, '%s does not use it, so it must be 0' % call) for index in unused if words[index] != 0]


# --- From a text to a file.

class WrongText(Exception):
    def __init__(self, line, what):
        super().__init__(what)
        self.line = line


class Text:
    """What the lines of a text say, each with its number."""
    def __init__(self):
        self.numbers = {}  # by keyword: the line, and its numbers
        self.steps = []  # the line, and the step's bytes
        self.contents = []  # the line, its keyword, an address or an offset, and bytes


def number(word, most=TOP):
    if not re.fullmatch('0x[0-9a-fA-F]+|[0-9]+', word):
        raise ValueError('`%s` is no number; numbers are decimal, or hex after 0x' % word)
    value = int(word, 16 if word.startswith('0x') else 10)
    if most is not None and value > most:
        raise ValueError('%s is too great; at most 0x%x' % (word, most))
    return value


def numbers_of(keyword, rest):
    words = rest.split()
    if len(words) != len(NUMBER_LINES[keyword].split()) - 1:
        raise ValueError('the line has the form `%s`' % NUMBER_LINES[keyword])
    values = [number(word) for word in words]
    if keyword == 'window' and values[1] > LONGEST_WINDOW:
        raise ValueError('a window of %d bytes; it has at most %d' % (values[1], LONGEST_WINDOW))
    return values


def step_of(call, rest):
    """The bytes of a step, from its named arguments."""
    given = {}
    for argument in rest.split():
        name, equals, value = argument.partition('=')
        if not equals or name not in USED[call]:
            raise ValueError('`%s`: the arguments of %s are %s, as `base=0x00100000`' % (argument, call, ', '.join(USED[call])))
        if name in given:
            raise ValueError('%s is given twice' % name)
        given[name] = number(value)
    for name in NEEDED[call]:
        if name not in given:
            raise ValueError('%s needs %s=' % (call, name))
    return struct.pack('<9I', CALLS.index(call), *(given.get(name, 0) for name in STEP_WORDS[1:]))


def content_of(keyword, rest, folder):
    """The place of a line that gives bytes, and the bytes."""
    if len(rest.split()) < 2:
        raise ValueError('the line has the form `%s`' % CONTENT_LINES[keyword])
    place, rest = rest.split(None, 1)
    if keyword == 'image':
        try:
            with open(os.path.join(folder, rest), 'rb') as image:
                return number(place, None), image.read()
        except OSError as error:
            raise ValueError('%s: %s' % (rest, error.strerror))
    if keyword == 'text':
        return number(place, None), rest.encode('utf-8', 'surrogateescape')
    if keyword == 'word':
        return number(place, None), b''.join(struct.pack('<I', number(word)) for word in rest.split())
    if not re.fullmatch('([0-9a-fA-F]{2})+', rest):
        raise ValueError('`%s` are no bytes in hex, two digits each, in one run' % rest)
    return number(place, None), bytes.fromhex(rest)


def read_line(text, line, words, folder):
    keyword, rest = (words.split(None, 1) + [''])[:2]
    if keyword in NUMBER_LINES:
        if keyword in text.numbers:
            raise ValueError('a second line `%s`; the first is line %d' % (keyword, text.numbers[keyword][0]))
        text.numbers[keyword] = line, numbers_of(keyword, rest)
    elif keyword in CONTENT_LINES:
        text.contents.append((line, keyword) + content_of(keyword, rest, folder))
    elif keyword in USED:
        text.steps.append((line, step_of(keyword, rest)))
        if len(text.steps) > MOST_STEPS:
            raise ValueError('step %d; a session has at most %d steps' % (len(text.steps), MOST_STEPS))
    else:
        known = [*USED, *NUMBER_LINES, *CONTENT_LINES]
        raise ValueError('`%s` is none of the words that a line may start with: %s' % (keyword, ', '.join(known)))


def read_text(data, folder):
    """The lines of a text, after its first; the paths of images count from the folder."""
    text = Text()
    lines = data.decode('utf-8', 'surrogateescape').split('\n')
    for k, line in enumerate(lines[1:], 2):
        words = re.sub(r'(^|\s)#.*', '', line).strip()
        try:
            if words:
                read_line(text, k, words, folder)
        except ValueError as wrong:
            raise WrongText(k, str(wrong))
    if 'window' not in text.numbers:
        raise WrongText(1, 'no line `%s` follows' % NUMBER_LINES['window'])
    return text


def layout(text):
    """The offsets of the step table and of the window's bytes, and the file's length."""
    def given(keyword, otherwise):
        line, (value,) = text.numbers.get(keyword, (1, [otherwise]))
        return line, value
    length, count = text.numbers['window'][1][1], len(text.steps)
    table_line, table = given('step_table', HEAD_BYTES)
    bytes_line, offset = given('window_bytes', HEAD_BYTES + STEP_BYTES * count)
    least = least_length(count, table, length, offset)
    file_line, size = given('file_length', least)
    ends = [(table_line, 'the steps end', table + STEP_BYTES * count), (bytes_line, 'the window\'s bytes end', offset + length),
            (file_line, 'the file ends', size)]
    for line, what, end in ends:
        if end > LONGEST_FILE:
            raise WrongText(line, '%s at %d; a session file has at most %d bytes' % (what, end, LONGEST_FILE))
    if size < least:
        raise WrongText(file_line, 'a file of %d bytes; its parts need %d' % (size, least))
    return table, offset, size


def place_of(text, content, offset, size):
    """Where in a file of that size the content of a line stands."""
    line, keyword, place, data = content
    address, length = text.numbers['window'][1]
    area, start, end = ('file', 0, size) if keyword == 'file_bytes' else ('window', address, address + length)
    if place < start or place + len(data) > end:
        raise WrongText(line, '0x%x bytes from 0x%x on, up to 0x%x; the %s is 0x%x to 0x%x'
                        % (len(data), place, place + len(data), area, start, end))
    return place if keyword == 'file_bytes' else offset + place - address


def file_of(text):
    """The session file. Of lines that give bytes a later one wins; head and steps must agree with them where parts overlap."""
    window_line, (address, length) = text.numbers['window']
    table, offset, size = layout(text)
    file, givers = bytearray(size), {}
    for content in text.contents:
        at, data = place_of(text, content, offset, size), content[3]
        file[at:at + len(data)] = data
        givers.update((k, content[0]) for k in range(at, at + len(data)))
    head = struct.pack('<5I', len(text.steps), table, address, length, offset)
    parts = [(line, table + STEP_BYTES * k, step) for k, (line, step) in enumerate(text.steps)]
    for line, at, data in parts + [(window_line, 0, head)]:
        for k, byte in enumerate(data, at):
            if k in givers and file[k] != byte:
                raise WrongText(line, 'byte 0x%x of the file is another by line %d' % (k, givers[k]))
            file[k], givers[k] = byte, line
    return bytes(file)


# --- From a file to a text.

def step_line(words):
    call = CALLS[words[0]]
    values = dict(zip(STEP_WORDS, words))
    shown = [name for name in USED[call] if values[name] or name in NEEDED[call]]
    forms = {'base': '0x%08x', 'data_segment': '0x%08x', 'bss_segment': '0x%08x', 'auto_link': '%d', 'fix_level': '%d'}
    return ' '.join([call] + ['%s=%s' % (name, forms.get(name, '0x%x') % values[name]) for name in shown])


def layout_lines(file):
    """Lines for what does not stand where a text puts it by itself."""
    count, table, _, length, offset = words_at(file, 0, 5)
    lines = []
    if table != HEAD_BYTES:
        lines.append('step_table 0x%x' % table)
    if offset != HEAD_BYTES + STEP_BYTES * count:
        lines.append('window_bytes 0x%x' % offset)
    if len(file) != least_length(count, table, length, offset):
        lines.append('file_length 0x%x' % len(file))
    return lines


def rows(file, start, end, known):
    """Rows, of at most 16 bytes and of whole words if they can be, that hold every byte from start to end that is not 0 and not
    known; each as its first offset and its end."""
    for row in range(start, end, 16):
        told = [k for k in range(row, min(row + 16, end)) if file[k] and not known[k]]
        if told:
            whole = [row + (told[0] - row) // 4 * 4, row + (told[-1] - row) // 4 * 4 + 4]
            yield whole if whole[1] <= end else [told[0], told[-1] + 1]


def content_line(address, data):
    """A row of the window: words if it has whole ones, and its characters if it seems to have a name."""
    if len(data) % 4 == 0:
        line = 'word 0x%08x %s' % (address, ' '.join('0x%x' % word for word in words_at(data, 0, len(data) // 4)))
    else:
        line = 'bytes 0x%08x %s' % (address, data.hex())
    if re.search(rb'[!-~]{3}', data):
        line += '  # ' + re.sub(r'[^!-~]', '.', data.decode('latin-1'))
    return line


def text_of(file):
    """The text of a session file that has no wrong word; the bytes that no line gives are 0."""
    count, table, address, length, offset = words_at(file, 0, 5)
    lines = ['session', 'window 0x%08x 0x%x' % (address, length)] + layout_lines(file)
    lines += [step_line(words_at(file, table + STEP_BYTES * k, 9)) for k in range(count)]
    known = [False] * len(file)
    known[:HEAD_BYTES] = [True] * HEAD_BYTES
    known[table:table + STEP_BYTES * count] = [True] * (STEP_BYTES * count)
    for start, end in rows(file, offset, offset + length, known):
        lines.append(content_line(address + start - offset, file[start:end]))
    known[offset:offset + length] = [True] * length
    for start, end in rows(file, 0, len(file), known):
        lines.append('file_bytes 0x%x %s' % (start, file[start:end].hex()))
    return '\n'.join(lines) + '\n'


# --- The commands.

def run_on_text(command, data, path, made):
    if command == 'print':
        return ['%s: this is a text; only a session file is printed' % path]
    try:
        file = file_of(read_text(data, os.path.dirname(path)))
    except WrongText as wrong:
        return ['%s:%d: %s' % (path, wrong.line, wrong)]
    if command == 'make':
        with open(made, 'wb') as out:
            out.write(file)
    else:
        note_window(file, path)
    return []


def note_window(file, path):
    """The session program takes a file whose window breaks its rule, and every step then gives 3: says so."""
    _, _, address, length, _ = words_at(file, 0, 5)
    if not length or address % PAGE or length % PAGE or address + length > TOP + 1:
        print('%s: the window is no run of whole pages below 2^32, so every step gives 3' % path, file=sys.stderr)


def run_on_file(command, file, path):
    if command == 'make':
        return ['%s:1: a session text\'s first line is `session`' % path]
    wrong = wrong_words(file)
    if wrong and file and (0 not in file or file[:2] in (codecs.BOM_UTF16_LE, codecs.BOM_UTF16_BE)):
        wrong.insert(0, 'this may be meant as a text: then its first line must be `session`, in ASCII or UTF-8')
    if command == 'print' and not wrong:
        sys.stdout.write(text_of(file))
    if command == 'check' and not wrong:
        note_window(file, path)
    return ['%s: %s' % (path, what) for what in wrong]


def run(command, path, made=None):
    """Runs a command, and gives messages for what is wrong."""
    with open(path, 'rb') as source:
        data = source.read()
    if command == 'is-text':
        sys.exit(0 if is_text(data) else 1)
    return run_on_text(command, data, path, made) if is_text(data) else run_on_file(command, data, path)


def main():
    arguments = sys.argv[1:]
    if arguments[:1] not in (['make'], ['print'], ['check'], ['is-text']) or len(arguments) != (3 if arguments[0] == 'make' else 2):
        sys.exit('usage: session.py make TEXT FILE | print FILE | check FILE | is-text FILE')
    try:
        wrong = run(*arguments)
    except OSError as error:
        wrong = ['%s: %s' % (error.filename, error.strerror)]
    if wrong:
        sys.exit('\n'.join(wrong))


if __name__ == '__main__':
    main()
