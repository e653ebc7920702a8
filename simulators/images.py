"""Images: from the sources in programs/, from short lines of assembly, and at random."""

import os
import random
import subprocess
import tempfile

HERE = os.path.join(os.path.dirname(os.path.abspath(__file__)), "programs")

TOOLS = "riscv64-unknown-elf-"
FLAGS = ["-march=rv32i", "-mabi=ilp32", "-nostartfiles", "-fno-builtin", "-static"]
FLAGS += ["-Wl,--no-relax", "-Wl,--no-warn-rwx-segments", "-Wl,--build-id=none", "-T", os.path.join(HERE, "link.ld")]
ALONE = ["-nostdlib", "-ffreestanding"]
OVER_LIBRARY = ["-specs=picolibc.specs", "-DPICOLIBC_DOUBLE_PRINTF_SCANF"]

# name, sources, flags, bytes of memory
PROGRAMS = [
    ("forty", ["forty.s"], [], 8192),
    ("tables", ["tables.s"], [], 8192),
    ("far", ["far.s"], [], 65536),
    ("sort", ["sort.c"], ["-O2"], 8192),
    ("sort-small", ["sort.c"], ["-Os"], 8192),
    ("sieve", ["sieve.c"], ["-O2"], 8192),
    ("crc", ["crc.c"], ["-O2"], 8192),
    ("crc-plain", ["crc.c"], ["-O0"], 8192),
    ("strings", ["strings.c"], ["-Os"], 8192),
    ("recursion", ["recursion.c"], ["-O1"], 8192),
    ("multiply", ["multiply.c"], ["-O2"], 8192),
    ("queens", ["queens.c"], ["-O2"], 8192),
    ("halves", ["halves.c"], ["-O1"], 8192),
    ("needles", ["needles.c"], ["-O2"], 8192),
    ("needles-plain", ["needles.c"], ["-O0"], 8192),
    ("matrix", ["matrix.c"], ["-O2"], 8192),
    ("list", ["list.c"], ["-O2"], 8192),
]

# Programs over the C library, picolibc, and over GCC's, which check themselves: sources in programs/library.
LIBRARY = ["sorting", "printing", "parsing", "floats", "functions", "odd", "heap", "jumps", "quotients", "texts", "bits"]
LIBRARY += ["interpreter", "checksums"]

# What is put behind the name, and flags: for speed, over the build of picolibc for that, and for size, over its build for that.
LEVELS = [("", ["-O2", "--picolibc-buildtype=release"]), ("-small", ["-Os"])]

# Stops: each cause that QEMU tells, from both sides of the line where it begins. The memory has 0x2000 bytes.
STOPS = [
    ("ecall", "ecall"),
    ("ebreak", "ebreak"),
    ("zero-word", ".word 0"),
    ("ones-word", ".word 0xffffffff"),
    ("fence-i", ".word 0x0000100f"),
    ("long-shift", ".word 0x02009093"),
    ("multiply-word", ".word 0x022081b3"),
    ("atomic-word", ".word 0x0042a0af"),
    ("compressed-word", ".word 0x00000001"),
    ("fences", ".word 0x0000000f; .word 0x8330000f; .word 0x0ff08f8f; .word 0xfffffc0f & ~0x7000; ecall"),
    ("jal-half", "addi x1,x0,5; .word 0x0020006f"),
    ("jal-link-half", "addi x1,x0,5; .word 0x006000ef"),
    ("branch-half", "addi x1,x0,5; .word 0x00108363"),
    ("branch-half-not-taken", "addi x1,x0,5; .word 0x00001363; bne x1,x0,.+8; ecall; ebreak"),
    ("jalr-half", "addi x1,x0,6; jalr x5,0(x1)"),
    ("jalr-odd", "addi x1,x0,13; jalr x5,0(x1); ecall; ebreak"),
    ("jalr-odd-half", "addi x1,x0,15; jalr x5,0(x1); ecall; ebreak"),
    ("jalr-own-register", "addi x1,x0,12; jalr x1,0(x1); ecall; ebreak"),
    ("jump-before", "jal x1,.-4"),
    ("jump-behind", "lui x1,2; jalr x2,0(x1)"),
    ("jump-last", "lui x1,2; jalr x2,-4(x1)"),
    ("jump-far", "lui x1,0x80000; jalr x0,-4(x1)"),
    ("load-last", "lui x1,2; lw x2,-4(x1); lb x3,-1(x1); lh x4,-2(x1); lw x5,0(x1)"),
    ("load-byte-behind", "lui x1,2; lb x2,0(x1)"),
    ("load-half-behind", "lui x1,2; lhu x2,0(x1)"),
    ("load-below", "lbu x2,-1(x0)"),
    ("load-wraps", "addi x1,x0,-4; lw x2,4(x1); lw x3,0(x1)"),
    ("load-to-zero-behind", "lui x1,2; lw x0,4(x1)"),
    ("store-last", "lui x1,2; addi x2,x0,-7; sw x2,-4(x1); sb x2,-5(x1); sh x2,-8(x1); sw x2,0(x1)"),
    ("store-byte-behind", "lui x1,2; sb x1,0(x1)"),
    ("store-half-behind", "lui x1,2; sh x1,2(x1)"),
    ("store-below", "sw x0,-2048(x0)"),
    ("store-after-load", "lui x1,1; addi x2,x0,33; sw x2,0(x1); lw x3,0(x1); addi x4,x3,1; sb x4,1(x1); lw x5,0(x1); beq x5,x3,.+8; ebreak; ecall"),
    ("wrong-path-illegal", "addi x1,x0,1; bne x1,x0,.+12; .word 0; .word 0; ecall"),
    ("wrong-path-store", "addi x1,x0,1; beq x1,x1,.+12; sw x1,0(x0); lw x2,1(x0); ecall"),
    ("behind-a-load", "lw x1,0(x0); jalr x0,0(x1)"),
]


def build(arguments, size):
    """The memory and the start of a program that is compiled or assembled, and linked."""
    with tempfile.TemporaryDirectory() as folder:
        elf = os.path.join(folder, "elf")
        flat = os.path.join(folder, "flat")
        subprocess.check_call([TOOLS + "gcc"] + FLAGS + [f"-Wl,--defsym=MEMORY={size}", "-o", elf] + arguments)
        subprocess.check_call([TOOLS + "objcopy", "-O", "binary", elf, flat])
        header = subprocess.check_output([TOOLS + "readelf", "-h", elf], text=True)
        start = int(header.split("Entry point address:")[1].split()[0], 16)
        with open(flat, "rb") as file:
            code = file.read()
    assert len(code) <= size
    return code + bytes(size - len(code)), start


def program(name, sources, flags, size):
    files = [os.path.join(HERE, source) for source in sources]
    if any(source.endswith(".c") for source in sources):
        files.insert(0, os.path.join(HERE, "start.s"))
    memory, start = build(ALONE + flags + files + ["-lgcc"], size)
    return name, memory, start


def library_program(name, suffix, flags):
    files = [os.path.join(HERE, "library", source) for source in ["start.s", name + ".c"]]
    memory, start = build(OVER_LIBRARY + flags + files + ["-lm"], 65536)
    return f"library-{name}{suffix}", memory, start


def stop(name, line):
    with tempfile.TemporaryDirectory() as folder:
        source = os.path.join(folder, "stop.s")
        with open(source, "w") as file:
            file.write(".option norvc\n.section .text.start\n.globl _start\n_start:\n" + line.replace("; ", "\n") + "\n")
        memory, start = build(ALONE + [source], 8192)
    return "stop-" + name, memory, start


# Words from fields.


def r_type(opcode, funct3, funct7, rd, rs1, rs2):
    return funct7 << 25 | rs2 << 20 | rs1 << 15 | funct3 << 12 | rd << 7 | opcode


def i_type(opcode, funct3, rd, rs1, imm):
    return (imm & 0xFFF) << 20 | rs1 << 15 | funct3 << 12 | rd << 7 | opcode


def s_type(funct3, rs1, rs2, imm):
    return (imm >> 5 & 0x7F) << 25 | rs2 << 20 | rs1 << 15 | funct3 << 12 | (imm & 31) << 7 | 0x23


def b_type(funct3, rs1, rs2, imm):
    return (
        (imm >> 12 & 1) << 31
        | (imm >> 5 & 63) << 25
        | rs2 << 20
        | rs1 << 15
        | funct3 << 12
        | (imm >> 1 & 15) << 8
        | (imm >> 11 & 1) << 7
        | 0x63
    )


def u_type(opcode, rd, imm):
    return imm << 12 | rd << 7 | opcode


def j_type(rd, imm):
    return (
        (imm >> 20 & 1) << 31
        | (imm >> 1 & 0x3FF) << 21
        | (imm >> 11 & 1) << 20
        | (imm >> 12 & 0xFF) << 12
        | rd << 7
        | 0x6F
    )


REGISTER_OPS = [(0, 0), (0, 0x20), (1, 0), (2, 0), (3, 0), (4, 0), (5, 0), (5, 0x20), (6, 0), (7, 0)]
IMMEDIATE_OPS = [0, 2, 3, 4, 6, 7]
SHIFT_OPS = [(1, 0), (5, 0), (5, 0x20)]
LOADS = {0: 1, 1: 2, 2: 4, 4: 1, 5: 2}
STORES = {0: 1, 1: 2, 2: 4}
BRANCHES = [0, 1, 4, 5, 6, 7]

# A random program keeps the address of its data in x8 and counts its loops in x9.
BASE, COUNTER = 8, 9
DATA = 0x1800
FREE = [r for r in range(32) if r not in (BASE, COUNTER)]

VALUES = [0, 1, 2, 0x7FF, 0x800, 0xFFF, 0x1000, 0x7FFFFFFF, 0x80000000, 0xFFFFFFFF, 0xFFFFF800, 0xAAAAAAAA, 0x55555555]


class Random:
    """A program with all kinds of instructions, with branches and jumps forward, loops that end, and accesses to data that
    are aligned and inside."""

    def __init__(self, seed):
        self.random = random.Random(seed)
        self.words = []

    def choose(self, items):
        return self.random.choice(items)

    def any(self):
        return self.random.randrange(32)

    def free(self):
        return self.choose(FREE)

    def imm(self):
        return self.choose([self.random.randrange(-2048, 2048), self.random.randrange(-4, 5), -2048, 2047])

    def set(self, rd, value):
        low = value & 0xFFF
        low -= 0x1000 if low & 0x800 else 0
        self.words.append(u_type(0x37, rd, (value - low) >> 12 & 0xFFFFF))
        self.words.append(i_type(0x13, 0, rd, rd, low))

    def arithmetic(self):
        kind = self.random.randrange(10)
        if kind < 4:
            funct3, funct7 = self.choose(REGISTER_OPS)
            return r_type(0x33, funct3, funct7, self.free(), self.any(), self.any())
        if kind < 7:
            return i_type(0x13, self.choose(IMMEDIATE_OPS), self.free(), self.any(), self.imm())
        if kind < 9:
            funct3, funct7 = self.choose(SHIFT_OPS)
            return r_type(0x13, funct3, funct7, self.free(), self.any(), self.any())
        return u_type(self.choose([0x37, 0x17]), self.free(), self.random.getrandbits(20))

    def access(self):
        """To a few places, so that what is stored is loaded again soon, or to any."""
        near = self.random.random() < 0.6
        if self.random.random() < 0.5:
            funct3, width = self.choose(list(LOADS.items()))
            offset = self.random.randrange(-16, 16) if near else self.random.randrange(-2048, 2048)
            return i_type(0x03, funct3, self.free(), BASE, offset // width * width)
        funct3, width = self.choose(list(STORES.items()))
        offset = self.random.randrange(-16, 16) if near else self.random.randrange(-2048, 2048)
        return s_type(funct3, BASE, self.any(), offset // width * width)

    def computed_access(self):
        """To an address that is computed from a register: 0x1000 to 0x17fc."""
        rd = self.choose([r for r in FREE if r])
        self.words.append(i_type(0x13, 7, rd, self.any(), 0x7FC))
        self.words.append(r_type(0x33, 0, 0, rd, rd, BASE))
        if self.random.random() < 0.5:
            self.words.append(i_type(0x03, 2, self.free(), rd, -2048))
        else:
            self.words.append(s_type(2, rd, self.any(), -2048))

    def forward(self):
        """Over some of the instructions that follow."""
        skip = self.random.randrange(1, 5)
        kind = self.random.randrange(6)
        if kind < 4:
            self.words.append(b_type(self.choose(BRANCHES), self.any(), self.any(), 4 * skip))
        elif kind == 4:
            self.words.append(j_type(self.free(), 4 * skip))
        else:
            rs1 = self.choose([r for r in FREE if r])
            self.words.append(u_type(0x17, rs1, 0))
            self.words.append(i_type(0x67, 0, self.free(), rs1, 4 * skip + 4 + self.random.randrange(2)))
        for _ in range(skip - 1):
            self.words.append(self.choose([self.arithmetic, self.access])())

    def loop(self):
        self.words.append(i_type(0x13, 0, COUNTER, 0, self.random.randrange(1, 7)))
        begin = len(self.words)
        self.body(self.random.randrange(2, 10))
        self.words.append(i_type(0x13, 0, COUNTER, COUNTER, -1))
        back = 4 * (begin - len(self.words))
        again = self.choose([(1, COUNTER, 0), (1, 0, COUNTER), (4, 0, COUNTER), (6, 0, COUNTER)])
        self.words.append(b_type(*again, back))

    def body(self, count):
        for _ in range(count):
            kind = self.random.random()
            if kind < 0.5:
                self.words.append(self.arithmetic())
            elif kind < 0.75:
                self.words.append(self.access())
            elif kind < 0.82:
                self.computed_access()
            elif kind < 0.98:
                self.forward()
            else:
                self.words.append(0x0000000F | self.random.getrandbits(32) & 0xFFFF8F80)

    def end(self):
        """Some of the causes. What is behind is not executed."""
        kind = self.random.randrange(8)
        if kind == 0:
            self.words.append(0x00100073)
        elif kind == 1:
            self.words.append(self.random.getrandbits(32) & 0xFFFFFF80 | self.choose([0x2F, 0x3B, 0x53, 0x07, 0x0B, 0x77]))
        elif kind == 2:
            self.words.append(j_type(self.free(), -4 * (len(self.words) + self.random.randrange(1, 9))))
        elif kind == 3:
            self.words.append(j_type(self.free(), 6))
        elif kind == 4:
            self.words.append(i_type(0x03, 2, self.free(), 0, -4))
        elif kind == 5:
            self.words.append(s_type(0, 0, self.any(), -1))
        else:
            self.words.append(0x00000073)
        for _ in range(3):
            self.words.append(self.arithmetic())

    def program(self):
        for rd in FREE:
            if rd and self.random.random() < 0.5:
                self.set(rd, self.choose([self.choose(VALUES), self.random.getrandbits(32)]))
        self.set(BASE, DATA)
        for _ in range(self.random.randrange(4, 8)):
            self.body(self.random.randrange(4, 12))
            self.loop()
        self.end()
        return self.words

    def any_instruction(self):
        """Any instruction but those of the system, with any fields; jumps and branches stay near."""
        kind = self.random.randrange(20)
        if kind < 9:
            return self.arithmetic() & ~0xF80 | self.any() << 7
        if kind < 12:
            return i_type(0x03, self.choose(list(LOADS)), self.any(), self.any(), self.imm())
        if kind < 15:
            return s_type(self.choose(list(STORES)), self.any(), self.any(), self.imm())
        if kind < 18:
            return b_type(self.choose(BRANCHES), self.any(), self.any(), 2 * self.random.randrange(-16, 32))
        if kind < 19:
            return j_type(self.any(), 2 * self.random.randrange(-16, 32))
        return i_type(0x67, 0, self.any(), self.any(), self.random.randrange(0, 160))

    def wild(self):
        """Instructions with any operands, which soon do what has a cause."""
        for rd in self.random.sample(range(1, 32), 8):
            self.set(rd, self.choose([self.choose(VALUES), 4 * self.random.randrange(0x1000), self.random.getrandbits(32)]))
        for _ in range(40):
            self.words.append(self.any_instruction())
        return self.words


def memory_of(words, data, size):
    code = b"".join(w.to_bytes(4, "little") for w in words)
    assert len(code) <= 0x1000
    memory = bytearray(size)
    memory[: len(code)] = code
    memory[DATA - len(data) // 2 : DATA + len(data) // 2] = data
    return bytes(memory)


def random_program(seed):
    maker = Random(f"program {seed}")
    words = maker.program()
    data = bytes(maker.random.getrandbits(8) for _ in range(64))
    return f"random-{seed}", memory_of(words, data, 8192), 0


def wild_program(seed):
    maker = Random(f"wild {seed}")
    return f"wild-{seed}", memory_of(maker.wild(), b"", 8192), 0
