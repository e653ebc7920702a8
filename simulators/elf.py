"""Writes the vectors of elf_trials: ELF files, and what each loads or why it is refused; make-elf calls it.

The files are made by the assembler, the compiler and the linker of a toolchain, or from such a file with a few bytes changed. What a
file loads is worked out from what `readelf` says of its segments; where the linker made it as it stands, `objcopy` has to give the
same bytes. Why a file is refused stands beside what was done to it.
"""

import os
import re
import struct
import subprocess
import tempfile

ROOT = os.path.dirname(os.path.dirname(os.path.abspath(__file__)))
CROSS = "riscv64-unknown-elf-"

CODE = """
        .globl _start
_start: addi x1, x0, 2
        lui x2, %hi(value)
        lw x3, %lo(value)(x2)
        add x4, x1, x3
        ecall
"""

DATA = """
        .data
        .globl value
value:  .word 40
        .asciz "some data"
"""

BSS = """
        .bss
        .space 100
"""

FAR = """
        .section .far, "a"
        .word 0xfeedbeef
"""

C = """
static int counts[8];
static int step = 3;
const char name[] = "panel";
int main(void)
{
    for (int i = 0; i < 8; i++)
        counts[i] += step + name[i & 3];
    return counts[7];
}
"""

ONE = "SECTIONS { .text 0 : { *(.text) *(.data) } /DISCARD/ : { *(.riscv.attributes) } }"

# Data that start code copies: loaded behind the code, used at 2000, with bss behind.
COPIED = """
SECTIONS
{
    .text 0 : { *(.text) }
    .data 0x2000 : AT(0x20) { *(.data) }
    .bss : { *(.bss) }
    /DISCARD/ : { *(.riscv.attributes) }
}
"""

THREE = """
PHDRS { text PT_LOAD; data PT_LOAD; far PT_LOAD; }
SECTIONS
{
    .text 0 : { *(.text) } :text
    .data 0x100 : { *(.data) } :data
    .bss : { *(.bss) } :data
    .far 0x1234 : AT(0x54) { *(.far) } :far
    /DISCARD/ : { *(.riscv.attributes) }
}
"""

# The bss is a segment of its own, without a byte in the file.
OWN_BSS = """
PHDRS { text PT_LOAD; bss PT_LOAD; }
SECTIONS
{
    .text 0 : { *(.text) *(.data) } :text
    .bss 0x8000 : { *(.bss) } :bss
    /DISCARD/ : { *(.riscv.attributes) }
}
"""

# The header of the file and the program headers are loaded too.
WITH_HEADERS = """
PHDRS { all PT_LOAD FILEHDR PHDRS; }
SECTIONS
{
    . = SIZEOF_HEADERS;
    .text : { *(.text) *(.data) } :all
    /DISCARD/ : { *(.riscv.attributes) }
}
"""

OVERLAPPING = """
PHDRS { text PT_LOAD; data PT_LOAD; }
SECTIONS
{
    .text 0 : { *(.text) } :text
    .data 0x100 : AT(8) { *(.data) } :data
    /DISCARD/ : { *(.riscv.attributes) }
}
"""

HIGH = ONE.replace(".text 0 :", ".text 0x80000000 :")

# Loaded at 0, used beyond 65536.
HIGH_DATA = COPIED.replace("0x2000", "0x20000")


def run(*command, text=None):
    done = subprocess.run(command, capture_output=True, input=text, text=True)
    if done.returncode != 0:
        raise SystemExit(f"{' '.join(command)}: {done.stderr}")
    return done.stdout


class Bench:
    """Makes files in a directory."""

    def __init__(self, folder):
        self.folder = folder

    def path(self, name):
        return os.path.join(self.folder, name)

    def write(self, name, text):
        with open(self.path(name), "w", encoding="ascii") as out:
            out.write(text)
        return self.path(name)

    def read(self, name):
        with open(self.path(name), "rb") as file:
            return file.read()

    def assembled(self, source, *options, tools=CROSS):
        options = options or ("-march=rv32i", "-mabi=ilp32")
        run(tools + "as", *options, "-o", self.path("a.o"), self.write("a.s", source))
        return self.read("a.o")

    def linked(self, source, script, *options, emulation="elf32lriscv", assembler=()):
        self.assembled(source, *assembler)
        run(CROSS + "ld", "-m", emulation, "-n", "-s", "-T", self.write("a.ld", script), *options, "-o", self.path("a.elf"), self.path("a.o"))
        return self.read("a.elf")

    def compiled(self, source):
        start = os.path.join(ROOT, "simulators", "programs", "start.s")
        script = os.path.join(ROOT, "simulators", "programs", "link.ld")
        flags = ["-march=rv32i", "-mabi=ilp32", "-Os", "-nostdlib", "-nostartfiles", "-Wl,-n", "-Wl,-s", "-Wl,--no-warn-rwx-segments"]
        flags += ["-Wl,--defsym=MEMORY=4096", "-Wa,--defsym,MEMORY=4096", "-T", script]
        run(CROSS + "gcc", *flags, "-o", self.path("a.elf"), start, self.write("a.c", source))
        return self.read("a.elf")

    def segments(self, file):
        """What readelf says of the program headers that load something: offset, virtual and physical address, sizes."""
        with open(self.path("r.elf"), "wb") as out:
            out.write(file)
        listed = run("readelf", "-lW", self.path("r.elf"))
        rows = re.findall(r"^ +LOAD +" + r"(0x[0-9a-f]+) +" * 5, listed, re.M)
        return [tuple(int(value, 16) for value in row) for row in rows]

    def entry(self, file):
        listed = run("readelf", "-hW", self.path("r.elf"))
        return int(re.search(r"Entry point address: +(0x[0-9a-f]+)", listed)[1], 16)

    def flattened(self):
        """What objcopy makes of the file that was linked last, with zeros before it from address 0."""
        lowest = min(at for _, _, at, size, _ in self.segments(self.read("a.elf")) if size)
        run(CROSS + "objcopy", "-O", "binary", self.path("a.elf"), self.path("a.bin"))
        return bytes(lowest) + self.read("a.bin")

    def account(self, file):
        """What is printed of a file that is loaded."""
        rows = self.segments(file)
        image = bytearray(max(at + size for _, _, at, size, _ in rows if size))
        for offset, _, at, size, _ in rows:
            if size:
                image[at : at + size] = file[offset : offset + size]
        memory = max(max(virtual, at) + size for _, virtual, at, _, size in rows if size)
        lines = [f"entry {self.entry(file):x} memory {memory} bytes {len(image)}"]
        for at in range(0, len(image), 16):
            if any(image[at : at + 16]):
                lines.append(f"{at:x} {image[at : at + 16].hex()}")
        return bytes(image), "\n".join(lines)


def changed(file, *changes):
    """The file with numbers of so many bytes put at offsets."""
    file = bytearray(file)
    for offset, size, value in changes:
        file[offset : offset + size] = value.to_bytes(size, "little")
    return bytes(file)


# Where the fields of the header and of a program header stand.
CLASS, ENCODING, VERSION, TYPE, MACHINE, VERSION_WORD = 4, 5, 6, 16, 18, 20
PHOFF, PHENTSIZE, PHNUM = 28, 42, 44
P_TYPE, P_OFFSET, P_VADDR, P_PADDR, P_FILESZ, P_MEMSZ = 0, 4, 8, 12, 16, 20


def header(number, field):
    """Where a field of a program header stands, of a file whose program headers begin at 52."""
    return 52 + 32 * number + field


def field_of(file, number, field):
    """The value of a field of a program header."""
    return struct.unpack_from("<I", file, header(number, field))[0]


# The faults, by their numbers from 1 on.
FAULTS = [
    "the file is not an ELF file",
    "the ELF file ends within its header",
    "the ELF file is not of 32 bits",
    "the ELF file is not little-endian",
    "the ELF file is not of version 1",
    "the ELF file is not for RISC-V",
    "the ELF file is not an executable, but relocatable, shared or of another type",
    "the ELF file has program headers of another size than 32 bytes",
    "the ELF file has program headers that lie outside of it",
    "the ELF file has a segment whose bytes lie outside of it",
    "the ELF file has a segment of more bytes in the file than in memory",
    "the ELF file has a segment that ends beyond 65536 by its physical address",
    "the ELF file has a segment that ends beyond 65536 by its virtual address",
    "the ELF file has segments that overlap by their physical addresses",
    "the ELF file has no segment with bytes to load",
]
NUMBERS = {text: number for number, text in enumerate(FAULTS, 1)}


def loaded_files(bench):
    """Files that are loaded: name, bytes, and whether objcopy has to agree."""
    yield "one", bench.linked(CODE + DATA, ONE), True
    yield "copied", bench.linked(CODE + DATA + BSS, COPIED), True
    yield "three", bench.linked(CODE + DATA + BSS + FAR, THREE), True
    yield "own-bss", bench.linked(CODE + DATA + BSS, OWN_BSS), True
    yield "with-headers", bench.linked(CODE + DATA, WITH_HEADERS), False
    yield "entry-behind", bench.linked(CODE + DATA, ONE, "-e", "8"), True
    yield "compiled", bench.compiled(C), True
    one = bench.linked(CODE + DATA, ONE)
    top = 65536 - field_of(one, 0, P_FILESZ)
    yield "at-the-top", changed(one, (header(0, P_PADDR), 4, top), (header(0, P_VADDR), 4, top)), False
    yield "memory-to-the-top", changed(one, (header(0, P_MEMSZ), 4, 65536)), False
    two = bench.linked(CODE + DATA, OVERLAPPING, "--no-check-sections")
    first, second = field_of(two, 0, P_FILESZ), field_of(two, 1, P_FILESZ)
    yield "adjacent", changed(two, (header(1, P_PADDR), 4, first)), False
    yield "adjacent-below", changed(two, (header(0, P_PADDR), 4, second), (header(1, P_PADDR), 4, 0)), False
    yield "empty-one-anywhere", changed(two, *((header(1, field), 4, 0xFFFFFFFF) for field in (P_OFFSET, P_VADDR, P_PADDR)), (header(1, P_FILESZ), 4, 0), (header(1, P_MEMSZ), 4, 0)), False
    yield "bss-outside-of-the-file", changed(two, (header(1, P_OFFSET), 4, 0xFFFFFFFF), (header(1, P_FILESZ), 4, 0)), False
    yield "bss-over-code", changed(two, (header(1, P_FILESZ), 4, 0)), False
    yield "bytes-under-bss", changed(two, (header(0, P_MEMSZ), 4, 40), (header(1, P_PADDR), 4, first)), False
    yield "note-beside", changed(two, (header(1, P_TYPE), 4, 4)), False


def refused_files(bench):
    """Files that are refused: name, bytes, and why."""
    one = bench.linked(CODE + DATA, ONE)
    size = field_of(one, 0, P_FILESZ)
    end = field_of(one, 0, P_OFFSET) + size
    two = bench.linked(CODE + DATA, OVERLAPPING, "--no-check-sections")
    first, second = field_of(two, 0, P_FILESZ), field_of(two, 1, P_FILESZ)

    not_elf = "the file is not an ELF file"
    yield "nothing", b"", not_elf
    yield "image", bench.flattened(), not_elf
    yield "half-a-magic", one[:3], not_elf
    yield "other-magic", changed(one, (3, 1, 0x47)), not_elf

    truncated = "the ELF file ends within its header"
    yield "magic-alone", one[:4], truncated
    yield "header-but-a-byte", one[:51], truncated

    yield "rv64", bench.linked(CODE + DATA, ONE, emulation="elf64lriscv", assembler=("-march=rv64i", "-mabi=lp64")), "the ELF file is not of 32 bits"
    yield "no-class", changed(one, (CLASS, 1, 0)), "the ELF file is not of 32 bits"

    big = bench.linked(CODE + DATA, ONE, emulation="elf32briscv", assembler=("-march=rv32i", "-mabi=ilp32", "-mbig-endian"))
    yield "big-endian", big, "the ELF file is not little-endian"
    yield "no-encoding", changed(one, (ENCODING, 1, 0)), "the ELF file is not little-endian"

    version = "the ELF file is not of version 1"
    yield "ident-of-version-2", changed(one, (VERSION, 1, 2)), version
    yield "version-0", changed(one, (VERSION_WORD, 4, 0)), version
    yield "version-high", changed(one, (VERSION_WORD, 4, 0x01000001)), version

    run("as", "--32", "-o", bench.path("i.o"), bench.write("i.s", ".globl _start\n_start: nop\n"))
    run("ld", "-m", "elf_i386", "-s", "-o", bench.path("i.elf"), bench.path("i.o"))
    yield "i386", bench.read("i.elf"), "the ELF file is not for RISC-V"
    yield "machine-499", changed(one, (MACHINE, 2, 243 + 256)), "the ELF file is not for RISC-V"

    kind = "the ELF file is not an executable, but relocatable, shared or of another type"
    yield "object", bench.assembled(CODE + DATA), kind
    yield "shared", changed(one, (TYPE, 2, 3)), kind
    yield "core", changed(one, (TYPE, 2, 4)), kind

    yield "entries-of-40", changed(one, (PHENTSIZE, 2, 40)), "the ELF file has program headers of another size than 32 bytes"

    outside = "the ELF file has program headers that lie outside of it"
    yield "cut-in-program-headers", one[:83], outside
    yield "program-headers-far", changed(one, (PHOFF, 4, 0xFFFFFFFF)), outside
    yield "many-program-headers", changed(one, (PHNUM, 2, 65535)), outside

    beyond = "the ELF file has a segment whose bytes lie outside of it"
    yield "cut-in-a-segment", one[: end - 1], beyond
    yield "segment-far", changed(one, (header(0, P_OFFSET), 4, 0xFFFFFFFF)), beyond

    yield "more-in-the-file", changed(one, (header(0, P_MEMSZ), 4, size - 1)), "the ELF file has a segment of more bytes in the file than in memory"
    yield "no-memory", changed(one, (header(0, P_MEMSZ), 4, 0)), "the ELF file has a segment of more bytes in the file than in memory"

    physical = "the ELF file has a segment that ends beyond 65536 by its physical address"
    yield "at-80000000", bench.linked(CODE + DATA, HIGH), physical
    yield "past-the-top", changed(one, (header(0, P_PADDR), 4, 65537 - size)), physical
    yield "round-the-end", changed(one, (header(0, P_PADDR), 4, 0xFFFFFFFF)), physical
    yield "memory-past-the-top", changed(one, (header(0, P_MEMSZ), 4, 65537)), physical
    yield "bss-past-the-top", changed(bench.linked(CODE + DATA + BSS, OWN_BSS), (header(1, P_PADDR), 4, 65437)), physical

    virtual = "the ELF file has a segment that ends beyond 65536 by its virtual address"
    yield "copied-to-20000", bench.linked(CODE + DATA + BSS, HIGH_DATA), virtual
    yield "used-past-the-top", changed(one, (header(0, P_VADDR), 4, 65537 - size)), virtual

    overlapping = "the ELF file has segments that overlap by their physical addresses"
    yield "overlapping", two, overlapping
    yield "overlapping-by-a-byte", changed(two, (header(1, P_PADDR), 4, first - 1)), overlapping
    yield "overlapping-from-below", changed(two, (header(0, P_PADDR), 4, second - 1), (header(1, P_PADDR), 4, 0)), overlapping

    nothing = "the ELF file has no segment with bytes to load"
    yield "empty", bench.linked("", ONE), nothing
    yield "bss-alone", changed(one, (header(0, P_FILESZ), 4, 0)), nothing
    yield "dynamic-alone", changed(one, (header(0, P_TYPE), 4, 2)), nothing

    # Which fault is the first.
    yield "rv64-and-relocatable", bench.assembled(CODE + DATA, "-march=rv64i", "-mabi=lp64"), "the ELF file is not of 32 bits"
    yield "second-outside-and-first-high", changed(two, (header(0, P_PADDR), 4, 0x10000), (header(1, P_OFFSET), 4, 0x10000)), physical
    yield "overlapping-and-second-high", changed(two, (header(1, P_VADDR), 4, 0x10000)), virtual


def main():
    given, said = [], []
    with tempfile.TemporaryDirectory() as folder:
        bench = Bench(folder)
        for name, file, plain in loaded_files(bench):
            image, account = bench.account(file)
            if plain:
                flat = bench.flattened()
                if flat != image:
                    raise SystemExit(f"{name}: objcopy gives other bytes")
            given.append(f"{name} {file.hex()}")
            said.append(f"{name}: {account}")
        for name, file, why in refused_files(bench):
            given.append(f"{name} {file.hex()}")
            raw = "" if file.startswith(b"\x7fELF") else "raw "
            said.append(f"{name}: {raw}fault {NUMBERS[why]}, {why}")
    for name, lines in (("stdin", given), ("stdout", said)):
        with open(os.path.join(ROOT, "crates", "elf_trials", name), "w", encoding="ascii") as out:
            out.write("".join(line + "\n" for line in lines))
    print(f"{len(given)} files")


if __name__ == "__main__":
    main()
