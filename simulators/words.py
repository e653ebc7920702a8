"""Words and their lines of assembly, from objdump, where QEMU executes them."""

import os
import random
import re
import subprocess
import tempfile

import images
import qemu
from qemu import signed

ROWS = ["lui", "auipc", "jal", "jalr"]
ROWS += ["beq", "bne", "blt", "bge", "bltu", "bgeu"]
ROWS += ["lb", "lh", "lw", "lbu", "lhu", "sb", "sh", "sw"]
ROWS += ["addi", "slti", "sltiu", "xori", "ori", "andi", "slli", "srli", "srai"]
ROWS += ["add", "sub", "sll", "slt", "sltu", "xor", "srl", "sra", "or", "and"]
ROWS += ["fence", "ecall", "ebreak"]

# What objdump knows besides, in any file for rv32i: words of the privileged manual, which QEMU executes too, and `unimp`.
PRIVILEGED = {"mret", "sret", "uret", "dret", "hret", "mnret", "wfi", "sfence.vma", "sfence.vm", "unimp"}


def examples(rng):
    """Words of each row: with all fields 0, with all 1, and with fields at random."""
    for fill in [lambda n: 0, lambda n: (1 << n) - 1, rng.getrandbits]:
        yield images.u_type(0x37, fill(5), fill(20))
        yield images.u_type(0x17, fill(5), fill(20))
        yield images.j_type(fill(5), fill(20) << 1)
        yield images.i_type(0x67, 0, fill(5), fill(5), fill(12))
        for funct3 in images.BRANCHES:
            yield images.b_type(funct3, fill(5), fill(5), fill(12) << 1)
        for funct3 in images.LOADS:
            yield images.i_type(0x03, funct3, fill(5), fill(5), fill(12))
        for funct3 in images.STORES:
            yield images.s_type(funct3, fill(5), fill(5), fill(12))
        for funct3 in images.IMMEDIATE_OPS:
            yield images.i_type(0x13, funct3, fill(5), fill(5), fill(12))
        for funct3, funct7 in images.SHIFT_OPS:
            yield images.r_type(0x13, funct3, funct7, fill(5), fill(5), fill(5))
        for funct3, funct7 in images.REGISTER_OPS:
            yield images.r_type(0x33, funct3, funct7, fill(5), fill(5), fill(5))
        yield fill(17) << 15 | fill(5) << 7 | 0x0F
    yield 0x00000073
    yield 0x00100073


def chosen():
    """Each row's examples with each word that differs from one in a bit, and random words, half of them with an opcode that has
    rows."""
    rng = random.Random("words")
    words = []
    for word in examples(rng):
        words.append(word)
        words += [word ^ 1 << bit for bit in range(32)]
    for _ in range(2000):
        words.append(rng.getrandbits(32))
    opcodes = [0x37, 0x17, 0x6F, 0x67, 0x63, 0x03, 0x23, 0x13, 0x33, 0x0F, 0x73]
    for _ in range(2000):
        words.append(rng.getrandbits(32) & ~0x7F | rng.choice(opcodes))
    return list(dict.fromkeys(words))


def disassembled(words):
    """What objdump prints of each word: the mnemonic and its operands, or None where it knows no instruction of four bytes. Each
    word has a label, so that one of another length does not reach into the next."""
    with tempfile.TemporaryDirectory() as folder:
        source, object_file, flat, patched = (os.path.join(folder, n) for n in ["w.s", "w.o", "w.bin", "p.o"])
        with open(source, "w") as file:
            file.write(".option norvc\n.text\n" + "".join(f"w{i}: nop\n" for i in range(len(words))))
        subprocess.check_call(
            [images.TOOLS + "as", "-march=rv32i", "-mabi=ilp32", "-mno-relax", source, "-o", object_file]
        )
        with open(flat, "wb") as file:
            file.write(b"".join(w.to_bytes(4, "little") for w in words))
        subprocess.check_call([images.TOOLS + "objcopy", "--update-section", f".text={flat}", object_file, patched])
        text = subprocess.run(
            [images.TOOLS + "objdump", "-d", "-z", "-M", "no-aliases,numeric", patched],
            stdout=subprocess.PIPE,
            stderr=subprocess.DEVNULL,
            text=True,
            check=False,
        ).stdout
    found = [None] * len(words)
    for line in text.split("\n"):
        match = re.match(r" *([0-9a-f]+):\t([0-9a-f]{8}) +\t(\S+)(?:\t(.*))?$", line)
        if match and not match[3].startswith("."):
            address = int(match[1], 16)
            assert words[address // 4] == int(match[2], 16)
            found[address // 4] = (match[3], match[4] or "")
    return found


def normal(address, mnemonic, operands):
    """The line as the program prints it: registers by number, offsets from the instruction's own address, decimal numbers, upper
    immediates in hexadecimal digits without a mark, and no operands of a fence."""
    if mnemonic == "fence" or mnemonic == "fence.tso":
        return "fence"
    operands = re.sub(r" .*", "", operands)
    parts = operands.split(",")
    if mnemonic == "jal" or mnemonic[0] == "b":
        offset = signed((int(parts[-1], 16) - address) % (1 << 32), 32)
        parts[-1] = str(offset)
    elif mnemonic in ("lui", "auipc"):
        parts[-1] = f"{int(parts[-1], 16):x}"
    elif mnemonic in ("slli", "srli", "srai"):
        parts[-1] = str(int(parts[-1], 16))
    return (mnemonic + " " + ",".join(parts)).strip()


def executed(words):
    """Whether QEMU executes each word: false where it is illegal. Each runs alone, with all registers zero. Words of the system
    are not tried, but for two."""
    machine = qemu.Machine(8192)
    answers = []
    try:
        for word in words:
            if word & 0x7F == 0x73 and word not in (0x73, 0x00100073):
                answers.append(None)
                continue
            machine.write(0x1000, word.to_bytes(4, "little"))
            machine.begin(0x1000)
            _, _, trap = machine.step()
            answers.append(not (trap and trap[0] == 2))
    finally:
        machine.close()
    return answers


def vectors():
    """The words, their lines, and how often the two tools and the manual are apart."""
    words = chosen()
    counts = {"words": len(words), "legal": 0, "fence": 0, "shift": 0, "privileged": 0, "rows": set()}
    lines = []
    for index, (word, said, does) in enumerate(zip(words, disassembled(words), executed(words))):
        mnemonic, operands = said or (None, "")
        if does is None:
            # not tried on QEMU: known to objdump only if it is privileged
            if mnemonic is not None:
                assert mnemonic in PRIVILEGED, (hex(word), said)
                counts["privileged"] += 1
            lines.append("illegal")
        elif does:
            if mnemonic is None or mnemonic == "fence.tso":
                # objdump knows only some fences
                assert word & 0x707F == 0x0F, (hex(word), said)
                counts["fence"] += 1
                mnemonic = "fence"
            assert mnemonic in ROWS, (hex(word), said)
            lines.append(normal(4 * index, mnemonic, operands))
            counts["legal"] += 1
            counts["rows"].add(mnemonic)
        else:
            if mnemonic is not None:
                # objdump has six bits for the amount of a shift, RV32I five
                assert mnemonic in ("slli", "srli", "srai") and word >> 25 & 1, (hex(word), said)
                counts["shift"] += 1
            lines.append("illegal")
    assert counts["rows"] == set(ROWS), set(ROWS) - counts["rows"]
    return words, lines, counts
