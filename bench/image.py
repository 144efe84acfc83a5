"""Writes an image whose log has a directory in each slot but the last one, or but the last LEFT.

  image.py LOG DEVICE FILE [LEFT [FORMAT]]      LOG and DEVICE in bytes, FORMAT 1 or 2
"""
import struct, sys, zlib
log, unit, device = int(sys.argv[1]), 4096, int(sys.argv[2])
left = int(sys.argv[4]) if len(sys.argv) > 4 else 1
form = int(sys.argv[5]) if len(sys.argv) > 5 else 1
lines, room, zeros = (8, 168, 0) if form == 1 else (16, 512, 21)
fs, master = bytes.fromhex("11111111111141118111111111111111"), bytes(15) + b"\1"
def summed(words):
    return words + [zlib.crc32(struct.pack("<%dQ" % len(words), *words))]
def halves(uuid):
    return list(struct.unpack("<2Q", uuid))
image = bytearray(device)
def put(line, words):
    struct.pack_into("<%dQ" % len(words), image, 64 * line, *words)
put(0, [int.from_bytes(b"famfs-01", "little")])
put(1, summed([form, 2097152, log, unit, device] + halves(fs) + halves(master) + [0] * 6))
slots = log // (64 * lines) - 1
count = slots - left
put(32768, summed([int.from_bytes(b"famfslog", "little"), log, slots] + halves(fs) + [0, 0]))
put(32769, [count])
for i in range(count):
    path = b"directory-%05d" % (i * 7919 % slots)
    words = [i, 2, 0, 0o755, 0, 0, len(path), 0, 0, 0] + [0] * 32
    words += struct.unpack("<%dQ" % (room // 8), path + bytes(room - len(path)))
    put(32768 + lines + lines * i, summed(words + [0] * zeros))
open(sys.argv[3], "wb").write(image)
