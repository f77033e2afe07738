#!/usr/bin/env python3
"""The pictures docs/page-overrun.png and docs/page-firewall.png: pages of runs as a browser shows them. 'docs/page.py' makes them anew, by the program
that BPFDB names (or 'bpfdb' on the PATH), with chromium. No test holds them: fonts differ from system to system."""
import base64
import os
import struct
import subprocess
import sys
import tempfile
import time
import zlib

TOP = os.path.dirname(os.path.dirname(os.path.realpath(__file__)))
sys.path.insert(0, os.path.join(TOP, 'tests', 'trials'))
from browser import Browser  # noqa: E402

# The most colours of a picture.
COLOURS = 96


def page(folder, *words):
    """The address of the page of a run."""
    subprocess.run([os.path.join(TOP, 'share', 'bpfdb-page'), '-o', 'run.html', *words], cwd=folder, check=True)
    return f'file://{folder}/run.html'


def example(folder, name):
    """The folder, with an example's object, its source and its context."""
    files = os.path.join(TOP, 'examples', name)
    with open(os.path.join(files, 'object.hex')) as digits, open(os.path.join(folder, f'{name}.o'), 'wb') as file:
        file.write(bytes.fromhex(digits.read()))
    for file in (f'{name}.c', 'context.bin'):
        os.symlink(os.path.join(files, file), os.path.join(folder, file))
    return folder


def overrun(browser, folder):
    """The overrun, at the store that wrote the wrong byte: a click on it led there."""
    browser.size(1280, 720)
    browser.open(page(example(folder, 'overrun'), '-m', 'context.bin', 'overrun.o'))
    browser.click(f'#m{0x2000001f8}')


def firewall(browser, folder):
    """The firewall, where it reads the port of a packet with options."""
    browser.size(1280, 720, dark=True)
    browser.open(page(example(folder, 'firewall'), '-m', 'context.bin', 'firewall.o'))
    browser.value('page.jump(page.run.slots.indexOf(44), "")')


def rows(picture):
    """The rows of pixels of a PNG of 8 bits a channel, each as bytes, and the bytes of a pixel."""
    parts, at = {}, 8
    while at < len(picture):
        length, kind = struct.unpack_from('>I4s', picture, at)
        parts[kind] = parts.get(kind, b'') + picture[at + 8:at + 8 + length]
        at += length + 12
    width, height, _, kind = struct.unpack_from('>IIBB', parts[b'IHDR'])
    size, content = {2: 3, 6: 4}[kind], zlib.decompress(parts[b'IDAT'])
    line, above = width * size, bytes(width * size)
    for start in range(0, height * (line + 1), line + 1):
        above = unfiltered(content[start], bytearray(content[start + 1:start + 1 + line]), above, size)
        yield bytes(above), size


def unfiltered(kind, row, above, size):
    """A row as it is, of one that tells how it differs from its neighbours."""
    for at in range(len(row)):
        left, up, corner = (row[at - size], above[at], above[at - size]) if at >= size else (0, above[at], 0)
        if kind == 4:
            guess = left + up - corner
            near = min((abs(guess - left), 0, left), (abs(guess - up), 1, up), (abs(guess - corner), 2, corner))[2]
        else:
            near = (0, left, up, (left + up) // 2)[kind]
        row[at] = row[at] + near & 255
    return row


def small(picture):
    """A PNG with the commonest colours alone, each pixel by the nearest of them."""
    pixels = [[row[at:at + 3] for at in range(0, len(row), size)] for row, size in rows(picture)]
    counts = {}
    for row in pixels:
        for pixel in row:
            counts[pixel] = counts.get(pixel, 0) + 1
    chosen = sorted(counts, key=counts.get, reverse=True)[:COLOURS]
    nearest = {pixel: min(range(len(chosen)), key=lambda at: sum((one - other) ** 2 for one, other in zip(pixel, chosen[at]))) for pixel in counts}
    content = b''.join(b'\0' + bytes(nearest[pixel] for pixel in row) for row in pixels)
    parts = [(b'IHDR', struct.pack('>IIBBBBB', len(pixels[0]), len(pixels), 8, 3, 0, 0, 0)), (b'PLTE', b''.join(chosen)), (b'IDAT', zlib.compress(content, 9)), (b'IEND', b'')]
    return b'\x89PNG\r\n\x1a\n' + b''.join(struct.pack('>I', len(data)) + kind + data + struct.pack('>I', zlib.crc32(kind + data)) for kind, data in parts)


def main():
    browser = Browser()
    for name, show in (('overrun', overrun), ('firewall', firewall)):
        with tempfile.TemporaryDirectory() as folder:
            show(browser, folder)
            browser.value('new Promise((done) => requestAnimationFrame(() => requestAnimationFrame(done)))')
            time.sleep(0.3)
            picture = base64.b64decode(browser.ask('Page.captureScreenshot', format='png')['data'])
        with open(os.path.join(TOP, 'docs', f'page-{name}.png'), 'wb') as file:
            file.write(small(picture))
    browser.close()


if __name__ == '__main__':
    main()
