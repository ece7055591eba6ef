"""What binutils make of the code of images, and the programs whose images are asked for."""
import glob
import os
import re
import shutil
import struct
import subprocess
import sys
import tempfile

from answers import COMPILER, TOP

MEASURE = os.path.join(TOP, "crates", "op_measure", "out", "op_measure")
OBJDUMP = "riscv64-unknown-elf-objdump"
LINE = re.compile(r"^\s*([0-9a-f]+):\s+([0-9a-f]{8})\s+(\S+)\s*(\S*)")


def are_there():
    """Whether objdump, the compiler and op_measure are at hand."""
    return bool(shutil.which(OBJDUMP)) and os.path.exists(COMPILER) and os.path.exists(MEASURE)


def said(*command):
    """The bytes that a command writes."""
    return subprocess.run(command, check=True, capture_output=True).stdout


def code_of(image):
    """The address and the bytes of the first executable segment of an ELF file of 32 bits."""
    (at,), (count,) = struct.unpack_from("<I", image, 28), struct.unpack_from("<H", image, 44)
    for k in range(count):
        _, offset, address, _, size, _, flags, _ = struct.unpack_from("<8I", image, at + 32 * k)
        if flags & 1:
            return address, image[offset : offset + size]
    sys.exit("tests/binutils.py: an image without code")


def decoded(code, address=0):
    """For each word of code that stands from an address on: its address, the word, its mnemonic and its operands, as binutils write them."""
    with tempfile.NamedTemporaryFile() as file:
        file.write(code)
        file.flush()
        text = said(OBJDUMP, "-D", "-z", "-b", "binary", "-m", "riscv:rv32", "-M", "no-aliases,numeric", f"--adjust-vma={address}", file.name).decode()
    return [match.groups() for match in map(LINE.match, text.splitlines()) if match]


def has_target(name):
    """Whether the last operand of an instruction is the address of a target."""
    return name[0] == "b" or name == "jal"


def programs():
    """The programs of the examples and of tests/programs, with its whole programs, that end with status 0."""
    folders = ("examples", os.path.join("tests", "programs"), os.path.join("tests", "programs", "whole"))
    for program in sorted(program for folder in folders for program in glob.glob(os.path.join(TOP, folder, "*.pas"))):
        if not os.path.exists(program.removesuffix(".pas") + ".status"):
            yield program


def image_of_low_code(count):
    """The image of low code of so many instructions."""
    with tempfile.NamedTemporaryFile() as file:
        file.write(said(os.path.join(TOP, "bench", "backend", "low_code"), str(count)))
        file.flush()
        return said(MEASURE, "build", file.name)
