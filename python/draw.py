"""Draws a frame from VRAM and a drawing record into a PNG, the left eye's picture and then the right one's.

    vbmodel demo
    python3 draw.py out/vram.bin out/drawing.bin 1 frame.png

In a source tree: ./vbmodel, python/draw.py, and `make lib` before.
"""

import struct
import sys
import zlib

import vb


def chunk(kind, data):
    return struct.pack(">I", len(data)) + kind + data + struct.pack(">I", zlib.crc32(kind + data))


def png(vram, frame):
    """Four shades of red, 768 by 224."""
    rows = b""
    for y in range(224):
        rows += b"\0" + bytes(vb.pixel(vram, frame, x // 384, x % 384, y) for x in range(768))
    head = struct.pack(">IIBBBBB", 768, 224, 8, 3, 0, 0, 0)
    reds = bytes([0x00, 0, 0, 0x55, 0, 0, 0xAA, 0, 0, 0xFF, 0, 0])
    parts = [(b"IHDR", head), (b"PLTE", reds), (b"IDAT", zlib.compress(rows)), (b"IEND", b"")]
    return b"\x89PNG\r\n\x1a\n" + b"".join(chunk(kind, data) for kind, data in parts)


def main(vram_file, drawing_file, frame, out):
    with open(vram_file, "rb") as file:
        vram = bytearray(file.read())
    with open(drawing_file, "rb") as file:
        drawing = vb.vb_drawing.from_buffer_copy(file.read())
    refusal = vb.vb_draw_frame(vram, drawing, int(frame))
    if refusal != 0:
        sys.exit(f"refusal {refusal}")
    with open(out, "wb") as file:
        file.write(png(vram, int(frame)))


if __name__ == "__main__":
    if len(sys.argv) != 5:
        sys.exit(__doc__)
    main(*sys.argv[1:])
