"""Writes the vectors, or only the words or the images; make-vectors calls it."""

import collections
import os
import sys

import images
import qemu
import words

ROOT = os.path.dirname(os.path.dirname(os.path.abspath(__file__)))

# The records that are told in full, after how many the digest is told, and the words that changed that are told in full.
SHOWN, PART, CHANGED = 8, 256, 16

# Longer runs are left out: of programs that were written, of those over the C library, and of random ones.
MOST, MOST_OVER_LIBRARY, MOST_AT_RANDOM = 40000, 300000, 4000

RANDOM, WILD = 80, 120


def digest(data, value=0xCBF29CE484222325):
    """FNV-1a of 64 bits."""
    for byte in data:
        value = (value ^ byte) * 0x100000001B3 % (1 << 64)
    return value


def image_text(name, memory, start):
    lines = [f"image {name} {start:x} {len(memory):x}"]
    for at in range(0, len(memory), 32):
        part = [int.from_bytes(memory[i : i + 4], "little") for i in range(at, at + 32, 4)]
        while part and part[-1] == 0:
            part.pop()
        if part:
            lines.append(f"{at:x} " + " ".join(f"{word:x}" for word in part))
    return "\n".join(lines + ["run"]) + "\n"


def account(name, memory, run):
    lines = [f"image {name}"]
    value = digest(b"")
    for number, (address, word, rd, written) in enumerate(run.records, 1):
        for part in (address, word, written):
            value = digest(part.to_bytes(4, "little"), value)
        if number <= SHOWN:
            lines.append(f"{number} {address:x} {word:x} {rd or '-'} {written:x}")
        if number % PART == 0:
            lines.append(f"digest {number} {value:016x}")
    cause, address = run.stop
    lines.append(f"stop {cause} {address:x} retired {len(run.records)} digest {value:016x}")
    for first in range(0, 32, 8):
        lines.append(f"x{first} " + " ".join(f"{v:x}" for v in run.registers[first : first + 8]))
    changed = 0
    for at in range(0, len(memory), 4):
        if run.memory[at : at + 4] != memory[at : at + 4]:
            changed += 1
            if changed <= CHANGED:
                lines.append(f"{at:x} {int.from_bytes(run.memory[at : at + 4], 'little'):x}")
    lines.append(f"memory {digest(run.memory):016x} changed {changed}")
    return "\n".join(lines) + "\n"


def all_images():
    for entry in images.PROGRAMS:
        yield images.program(*entry)
    for entry in images.STOPS:
        yield images.stop(*entry)
    for seed in range(RANDOM):
        yield images.random_program(seed)
    for seed in range(WILD):
        yield images.wild_program(seed)
    for name in images.LIBRARY:
        for suffix, flags in images.LEVELS:
            yield images.library_program(name, suffix, flags)


def write(crate, name, text):
    with open(os.path.join(ROOT, "crates", crate, name), "w") as file:
        file.write(text)


def by_row(retired):
    """How often each row retired, by objdump's names."""
    rows = collections.Counter()
    for (word, count), said in zip(retired.items(), words.disassembled(list(retired))):
        rows[said[0] if said and said[0] != "fence.tso" else "fence"] += count
    assert set(rows) | {"ecall", "ebreak"} == set(words.ROWS), set(words.ROWS) ^ set(rows)
    return rows


def make_images():
    given, told = [], []
    causes, left_out, retired = collections.Counter(), collections.Counter(), collections.Counter()
    for name, memory, start in all_images():
        kind = name.split("-")[0]
        most = {"random": MOST_AT_RANDOM, "wild": MOST_AT_RANDOM, "library": MOST_OVER_LIBRARY}.get(kind, MOST)
        try:
            run = qemu.run(memory, start, most)
        except qemu.LeftOut as why:
            assert kind in ("random", "wild"), (name, why)
            left_out[f"{kind}: {why}"] += 1
            continue
        # a program over the library stops with another cause where it finds itself wrong
        assert kind != "library" or run.stop[0] == 11, (name, run.stop, run.registers)
        given.append(image_text(name, memory, start))
        told.append(account(name, memory, run))
        causes[run.stop[0]] += 1
        retired.update(record[1] for record in run.records)
    write("replay", "stdin", "".join(given))
    write("replay", "stdout", "".join(told))
    print(f"{len(given)} images, {sum(retired.values())} instructions")
    print("retired by row:", ", ".join(f"{row}: {count}" for row, count in by_row(retired).most_common()))
    print("stops by cause:", ", ".join(f"{cause}: {count}" for cause, count in sorted(causes.items())))
    print("left out:", ", ".join(f"{why}: {count}" for why, count in sorted(left_out.items())) or "none")


def make_words():
    given, lines, counts = words.vectors()
    write("disassemble", "stdin", "".join(f"{word:x}\n" for word in given))
    write("disassemble", "stdout", "".join(f"{word:x} {line}\n" for word, line in zip(given, lines)))
    print(f"{counts['words']} words, {counts['legal']} of them legal, {len(counts['rows'])} rows")
    print(f"fences that objdump has no line for, or another name: {counts['fence']}")
    print(f"shifts by 32 and more that objdump prints: {counts['shift']}")
    print(f"privileged words that objdump prints: {counts['privileged']}")


PARTS = {"words": make_words, "images": make_images}

if __name__ == "__main__":
    for part in sys.argv[1:] or PARTS:
        PARTS[part]()
