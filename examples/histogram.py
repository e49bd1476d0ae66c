#!/usr/bin/env python3
"""Draws a histogram of a bank of the files of a run, as text and as an SVG file.

    python3 histogram.py FILE.. BANK [--bins N] [--svg FILE]

It reads the bytes of run files as docs/formats.md says, so it shows how to read them in a program of one's own, and needs
nothing but Python 3.8. Files that are not those of one run are refused with the words of `midas check`, and with its status 3.
"""
import argparse
import os
import struct
import sys

HEADER = struct.Struct('<HHIII')
BEGIN, END, RECORD_MASK = 0x8000, 0x8001, 0x494D
RECORD_LIMIT, EVENT_LIMIT, FILE_LIMIT = 268_435_456, 4_194_304, 2**62

# The header of a bank by the flags of its area: name, type and size, and in the third a reserved word.
BANK_HEADERS = {0x01: struct.Struct('<4sHH'), 0x11: struct.Struct('<4sII'), 0x31: struct.Struct('<4sIII')}

# How many bytes an item of each integer type has, and whether it has a sign.
INTEGERS = {
    1: (1, False),  # UINT8
    2: (1, True),  # INT8
    4: (2, False),  # UINT16
    5: (2, True),  # INT16
    6: (4, False),  # UINT32
    7: (4, True),  # INT32
    17: (8, True),  # INT64
    18: (8, False),  # UINT64
}


class Fault(Exception):
    """What is wrong with a file or with the data of an event, in the words of docs/formats.md."""


class OtherRun(Exception):
    """The run of a file, which is another than that of the first."""


def padded(size):
    """A size, raised to a multiple of 8."""
    return (size + 7) // 8 * 8


def record_fault(place, header, run):
    """The fault of the id, mask and run number of a header, if it has one."""
    event_id, mask, serial = header[:3]
    if place == 0:
        return None if (event_id, mask) == (BEGIN, RECORD_MASK) else 'NoBegin 0'
    if event_id == BEGIN or (event_id == END and (mask, serial) != (RECORD_MASK, run)):
        return f'BadRecord {place}'
    return None


def read_events(file, first_run, before):
    """The events of a run file behind others that have so many bytes: run number, header and data of each. Raises Fault at the
    first fault; a file of another run than theirs is one. Gives its run and its length."""
    length = os.fstat(file.fileno()).st_size
    place, run = 0, None
    while True:
        head = file.read(HEADER.size)
        if not head:
            raise Fault(f'NoEnd {place}' if place else 'NoBegin 0')
        if len(head) < HEADER.size:
            raise Fault(f'Truncated {length}')
        header = HEADER.unpack(head)
        fault = record_fault(place, header, run)
        if fault:
            raise Fault(fault)
        event_id, size = header[0], header[4]
        if size > (RECORD_LIMIT if event_id in (BEGIN, END) else EVENT_LIMIT):
            raise Fault(f'TooBig {place} {size}')
        if before + place + HEADER.size + size > FILE_LIMIT:
            raise Fault(f'TooLong {place}')
        data = file.read(size)
        if len(data) < size:
            raise Fault(f'Truncated {length}')
        place += HEADER.size + size
        if event_id == BEGIN:
            run = header[2]
            if first_run not in (None, run):
                raise OtherRun(run)
        elif event_id == END:
            break
        else:
            yield run, header, data
    if file.read(1):
        raise Fault(f'AfterEnd {place}')
    return run, place


def read_banks(data):
    """The banks of a bank area: name, type and bytes of each. Raises Fault where the data are none."""
    length = len(data)
    if length < 8:
        raise Fault(f'Short {length}')
    size, flags = struct.unpack_from('<II', data)
    if flags not in BANK_HEADERS:
        raise Fault(f'BadFlags {flags}')
    if size > length - 8:
        raise Fault(f'Short {length}')
    if size < length - 8:
        raise Fault('BadSize 0')
    header, place, banks = BANK_HEADERS[flags], 8, []
    while place < length:
        if length - place < header.size:
            raise Fault(f'Short {length}')
        name, kind, size = header.unpack_from(data, place)[:3]
        begin = place + header.size
        if begin + padded(size) > length:
            raise Fault(f'BadSize {place}')
        banks.append((name, kind, data[begin : begin + size]))
        place = begin + padded(size)
    return banks


def read_items(kind, data):
    """The numbers in a bank of an integer type. Bytes at its end that make no whole number are passed over."""
    size, signed = INTEGERS[kind]
    for at in range(0, len(data) - size + 1, size):
        yield int.from_bytes(data[at : at + size], 'little', signed=signed)


def read_files(paths):
    """The events of the files of a run, in order. Raises Fault at the first fault, with the name of the file where there are
    several."""
    run, size = None, 0
    for at, path in enumerate(paths):
        place = f' in {path}' if len(paths) > 1 else ''
        with open(path, 'rb') as file:
            try:
                run, length = yield from read_events(file, run, size)
            except OtherRun as other:
                raise Fault(f'OtherRun {at} {other}{place}') from other
            except Fault as fault:
                raise Fault(f'{fault}{place}') from fault
        size += length


def read_numbers(paths, bank, counts):
    """All numbers of the banks of this name in the files of a run, whichever their integer types. Counts the events, and those
    without banks."""
    for run, _, data in read_files(paths):
        counts['run'] = run
        counts['events'] += 1
        try:
            banks = read_banks(data)
        except Fault:
            counts['bad'] += 1
            continue
        for name, kind, content in banks:
            if name == bank and kind in INTEGERS:
                yield from read_items(kind, content)


def new_counts():
    return {'run': None, 'events': 0, 'bad': 0}


def fill(paths, bank, bins):
    """The histogram of a bank: what was counted, the bins, each with its least and greatest number and how many numbers it has.
    Goes over the files twice: for the range of the numbers, and then for their bins."""
    counts, low, high = new_counts(), None, None
    for number in read_numbers(paths, bank, counts):
        low = number if low is None else min(low, number)
        high = number if high is None else max(high, number)
    if low is None:
        return counts, []
    width = -(-(high - low + 1) // bins)
    heights = [0] * -(-(high - low + 1) // width)
    for number in read_numbers(paths, bank, new_counts()):
        heights[(number - low) // width] += 1
    edges = [low + at * width for at in range(len(heights))]
    return counts, [(edge, min(edge + width - 1, high), height) for edge, height in zip(edges, heights)]


def title_of(bank, counts, histogram):
    """What the histogram shows. A byte of a name outside 0x21 to 0x7E is shown as a point."""
    name = ''.join(chr(byte) if 0x21 <= byte <= 0x7E else '.' for byte in bank)
    title = f'{name}: {sum(height for _, _, height in histogram)} numbers in {counts["events"]} events'
    if counts['run'] is not None:
        title += f' of run {counts["run"]}'
    if counts['bad']:
        title += f', {counts["bad"]} without banks'
    return title


def as_text(title, histogram, width=50):
    """A line for each bin, with a bar of at most so many signs."""
    most = max(height for _, _, height in histogram)
    digits = max(len(str(number)) for low, high, _ in histogram for number in (low, high))
    lines = [title]
    for low, high, height in histogram:
        bar = '#' * (height * width // most)
        lines.append(f'{low:>{digits}} to {high:>{digits}} |{bar:<{width}}| {height}')
    return '\n'.join(lines) + '\n'


def as_svg(title, histogram, width=640, height=320, edge=40):
    """The same as a picture."""
    title = title.replace('&', '&amp;').replace('<', '&lt;').replace('>', '&gt;')
    most = max(count for _, _, count in histogram)
    step = (width - 2 * edge) / len(histogram)
    foot, room = height - edge, height - 2 * edge
    parts = [
        f'<svg xmlns="http://www.w3.org/2000/svg" width="{width}" height="{height}" font-family="sans-serif" font-size="12">',
        f'<rect width="{width}" height="{height}" fill="white"/>',
        f'<text x="{width / 2}" y="{edge / 2}" text-anchor="middle">{title}</text>',
    ]
    for at, (low, high, count) in enumerate(histogram):
        tall = room * count / most
        parts.append(
            f'<rect x="{edge + at * step:.2f}" y="{foot - tall:.2f}" width="{step:.2f}" height="{tall:.2f}"'
            f' fill="steelblue" stroke="white"><title>{low} to {high}: {count}</title></rect>'
        )
    parts += [
        f'<path d="M {edge} {edge} V {foot} H {width - edge}" fill="none" stroke="black"/>',
        f'<text x="{edge}" y="{foot + 16}" text-anchor="middle">{histogram[0][0]}</text>',
        f'<text x="{width - edge}" y="{foot + 16}" text-anchor="end">{histogram[-1][1]}</text>',
        f'<text x="{edge - 4}" y="{edge + 4}" text-anchor="end">{most}</text>',
        f'<text x="{edge - 4}" y="{foot}" text-anchor="end">0</text>',
        '</svg>',
    ]
    return '\n'.join(parts) + '\n'


def positive(word):
    number = int(word)
    if number < 1:
        raise argparse.ArgumentTypeError('at least 1')
    return number


def bank_name(word):
    name = os.fsencode(word)
    if len(name) != 4:
        raise argparse.ArgumentTypeError('a bank has a name of four bytes')
    return name


def main():
    parser = argparse.ArgumentParser(description='Draws a histogram of a bank of the files of a run.')
    parser.add_argument('files', nargs='+', metavar='file', help='a file of the run, as run00001.mid')
    parser.add_argument('bank', type=bank_name, help='the name of the bank, as GEN0')
    parser.add_argument('--bins', type=positive, default=16, help='how many bins there are at most (16)')
    parser.add_argument('--svg', help='the file for a picture')
    words = parser.parse_args()
    try:
        counts, histogram = fill(words.files, words.bank, words.bins)
        title = title_of(words.bank, counts, histogram)
        if not histogram:
            print(title)
            return 0
        print(as_text(title, histogram), end='')
        if words.svg:
            with open(words.svg, 'w', encoding='ascii') as file:
                file.write(as_svg(title, histogram))
    except Fault as fault:
        print(f'bad {fault}')
        return 3
    except OSError as error:
        print(error, file=sys.stderr)
        return 4
    return 0


if __name__ == '__main__':
    sys.exit(main())
