#!/usr/bin/env python3
"""Looks at a picture of a page of requirements: whether it is light or dark as asked for, has the colours of the style, and ends within
the window, so that nothing is cut off at its right side.

    look.py light|dark PICTURE.png
"""
import struct
import sys
import zlib

# The style's colours: the sheet, and what is good, bad, and a remark.
STYLE = {
    "light": ["#ffffff", "#1a7f37", "#b3261e", "#8a5a00"],
    "dark": ["#0d1117", "#3fb950", "#ff7b72", "#d29922"],
}


def pixels(path):
    """The rows of an eight bit picture with three or four channels, as bytes, and how many bytes a pixel takes."""
    data = open(path, "rb").read()
    assert data[:8] == b"\x89PNG\r\n\x1a\n"
    at, parts = 8, []
    while at < len(data):
        length, kind = struct.unpack(">I4s", data[at : at + 8])
        body = data[at + 8 : at + 8 + length]
        if kind == b"IHDR":
            width, height, depth, colour, _, _, interlaced = struct.unpack(">IIBBBBB", body)
        elif kind == b"IDAT":
            parts.append(body)
        at += 12 + length
    assert depth == 8 and colour in (2, 6) and interlaced == 0
    size = 4 if colour == 6 else 3
    return unfiltered(zlib.decompress(b"".join(parts)), width * size, height, size), size


def unfiltered(raw, stride, height, size):
    rows, above = [], bytearray(stride)
    for y in range(height):
        start = y * (stride + 1)
        rows.append(unfiltered_row(raw[start], bytearray(raw[start + 1 : start + 1 + stride]), above, size))
        above = rows[-1]
    return rows


def unfiltered_row(how, row, above, size):
    if how == 2:
        return bytearray((byte + up) & 255 for byte, up in zip(row, above)) if any(row) else above
    for i in range(len(row) if how else 0):
        left = row[i - size] if i >= size else 0
        corner = above[i - size] if i >= size else 0
        row[i] = (row[i] + (0, left, above[i], (left + above[i]) // 2, paeth(left, above[i], corner))[how]) & 255
    return row


def paeth(left, up, corner):
    guess = left + up - corner
    return min((abs(guess - left), 0, left), (abs(guess - up), 1, up), (abs(guess - corner), 2, corner))[2]


def main(scheme, path):
    rows, size = pixels(path)
    seen = {bytes(row[i : i + 3]) for row in rows for i in range(0, len(row), size)}
    wanted = {name: bytes.fromhex(name[1:]) for name in STYLE[scheme]}
    sheet = wanted[STYLE[scheme][0]]
    faults = ["the colour %s is missing" % name for name, colour in wanted.items() if colour not in seen and name != STYLE[scheme][3]]
    if any(bytes(row[-size : len(row) - size + 3]) != sheet for row in rows):
        faults.append("the page reaches the right side")
    if len(seen) < 20:
        faults.append("the page is empty")
    for fault in faults:
        print("%s: %s" % (path, fault))
    return 1 if faults else 0


if __name__ == "__main__":
    sys.exit(main(*sys.argv[1:]))
