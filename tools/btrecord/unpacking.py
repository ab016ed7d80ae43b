"""What trace-cmd compressed: blocks, each with its size as it stands there and its size when it is plain.

zlib is a part of Python. zstd is one of newer Pythons; in others the program `zstd` unpacks it.
"""
import importlib
import io
import mmap
import re
import shutil
import struct
import subprocess

from faults import Refused
from output import nameless

COUNT, SIZES = struct.Struct("<I"), struct.Struct("<II")
# A block is a text of the kernel's, or some pages of its ring.
MOST_BLOCK = 1 << 26
MOST_PLAIN = 1 << 34
MOST_NAME = 40
STEP = 1 << 20
BROKEN = "what is compressed in the file is not whole"


def plain_command(path):
    """The command that makes a file that can be converted of one that is compressed."""
    return f"make it plain by: trace-cmd convert -i {path} -o plain.dat --file-version 6 --compression none"


def blocks_at(data, at, count):
    """The places of so many blocks, one behind the other: where the bytes of each begin and end, and its size when it is plain."""
    found = []
    for _ in range(count):
        if at + SIZES.size > len(data):
            raise Refused(f"the file ends too soon, at byte {len(data)}")
        packed, plain = SIZES.unpack_from(data, at)
        at += SIZES.size
        if at + packed > len(data):
            raise Refused(f"the file ends too soon, at byte {len(data)}")
        if plain > MOST_BLOCK:
            raise Refused(BROKEN)
        found.append((at, at + packed, plain))
        at += packed
    if sum(plain for *_, plain in found) > MOST_PLAIN:
        raise Refused(f"the file holds more than {MOST_PLAIN:,} bytes for a CPU")
    return found


def blocks_of_cpu(data, at):
    """The places of the blocks of a CPU, whose number stands before them."""
    if at + COUNT.size > len(data):
        raise Refused(f"the file ends too soon, at byte {len(data)}")
    return blocks_at(data, at + COUNT.size, COUNT.unpack_from(data, at)[0])


def module_for(name):
    """What makes an unpacker in this Python, and the fault that it raises; nothing where there is none."""
    try:
        if name == "zlib":
            zlib = importlib.import_module("zlib")
            return zlib.decompressobj, zlib.error
        zstd = importlib.import_module("compression.zstd")
        return zstd.ZstdDecompressor, zstd.ZstdError
    except ImportError:
        return None


class Packing:
    """How a file is compressed, by the name that it gives, and what unpacks it here."""

    def __init__(self, name, path):
        self.name, self.path = re.sub("[^ -~]", "?", name[:MOST_NAME].decode("latin-1")), path

    def plain_block(self, data, at):
        """The plain bytes of the one block that stands there."""
        file = io.BytesIO()
        self.unpack(data, blocks_at(data, at, 1), file, None)
        return file.getvalue()

    def plain_file(self, data, blocks, folder):
        """The plain bytes of blocks, which stand in a file without a name in a folder."""
        if not blocks:
            return b""
        with nameless(folder) as file:
            self.unpack(data, blocks, file, folder)
            file.flush()
            return mmap.mmap(file.fileno(), 0, access=mmap.ACCESS_READ) if file.tell() else b""

    def unpack(self, data, blocks, file, folder):
        """Writes the plain bytes of blocks to a file."""
        found = module_for(self.name) if self.name in ("zlib", "zstd") else None
        program = shutil.which("zstd") if self.name == "zstd" and not found else None
        if found:
            unpack_by_module(data, blocks, file, *found)
        elif program:
            unpack_by_program(data, blocks, file, folder, program)
        elif self.name == "zstd":
            raise Refused(f"the file is compressed by zstd, and the program zstd is not there; {plain_command(self.path)}")
        else:
            raise Refused(f"the file is compressed by {self.name}; {plain_command(self.path)}")


def unpack_by_module(data, blocks, file, unpacker, fault):
    """Writes the plain bytes of each block, which ends where its size says."""
    for begin, end, size in blocks:
        one = unpacker()
        try:
            plain = one.decompress(data[begin:end], size + 1)
        except fault as error:
            raise Refused(BROKEN) from error
        if len(plain) != size or not one.eof or one.unused_data:
            raise Refused(BROKEN)
        file.write(plain)


def unpack_by_program(data, blocks, file, folder, program):
    """Writes the plain bytes of all blocks, which the program takes as one stream."""
    left = sum(size for *_, size in blocks)
    with nameless(folder) as packed:
        for begin, end, _ in blocks:
            packed.write(data[begin:end])
        packed.seek(0)
        # Where more comes than there is to be, its output is closed, which ends it.
        with subprocess.Popen([program, "-dcq"], stdin=packed, stdout=subprocess.PIPE, stderr=subprocess.DEVNULL) as tool:
            while left >= 0 and (part := tool.stdout.read(STEP)):
                left -= len(part)
                file.write(part)
    if left or tool.returncode:
        raise Refused(BROKEN)
