"""A run on QEMU, one step after another, over the remote protocol of its GDB stub.

The machine is `none`: a processor and plain memory from address 0, and nothing else. The processor is rv32 with every
extension off that the version of Debian 12 (7.2) lets one switch off and that the runs do not need. Control and status
registers stay on: by them the stub says why a trap was taken, in the numbers that the privileged manual gives to causes.
"""

import os
import re
import socket
import subprocess
import tempfile
import time

CPU = (
    "rv32,c=false,m=false,a=false,f=false,d=false,h=false,s=false,u=false,v=false,"
    "mmu=false,pmp=false,sstc=false,debug=false,Zifencei=false,Zihintpause=false,"
    "zba=false,zbb=false,zbc=false,zbs=false"
)

# Memory is given out in these pieces.
PIECE = 8192

# Where traps go: outside any memory. A trap is told from a jump there by what mcause held before.
TRAP = 0xFFFFF000
NO_CAUSE = 0x3F

PC = 32


class Machine:
    """A processor with so many bytes of memory, all zero."""

    def __init__(self, size):
        assert size % PIECE == 0
        self.folder = tempfile.TemporaryDirectory()
        path = os.path.join(self.folder.name, "gdb")
        self.process = subprocess.Popen(
            ["qemu-system-riscv32", "-M", "none", "-cpu", CPU, "-m", f"{size // 1024}K", "-nographic"]
            + ["-monitor", "none", "-serial", "none", "-S"]
            + ["-chardev", f"socket,id=gdb,path={path},server=on,wait=off", "-gdb", "chardev:gdb"],
            stdin=subprocess.DEVNULL,
            stderr=subprocess.DEVNULL,
        )
        self.link = socket.socket(socket.AF_UNIX)
        self.link.settimeout(20)
        for _ in range(500):
            try:
                self.link.connect(path)
                break
            except OSError:
                time.sleep(0.01)
        self.seen = b""
        self.ask("qSupported:xmlRegisters=riscv")
        numbers = self.numbers()
        self.mtvec = numbers["mtvec"]
        self.mepc = numbers["mepc"]
        self.mcause = numbers["mcause"]
        self.ask("?")
        self.set_register(self.mtvec, TRAP)

    def close(self):
        self.link.close()
        self.process.terminate()
        self.process.wait()
        self.folder.cleanup()

    def ask(self, text):
        data = text.encode()
        self.link.sendall(b"$" + data + b"#%02x" % (sum(data) % 256))
        while True:
            begin = self.seen.find(b"$")
            end = self.seen.find(b"#", begin)
            if 0 <= begin < end and end + 3 <= len(self.seen):
                reply = self.seen[begin + 1 : end].decode("latin1")
                self.seen = self.seen[end + 3 :]
                self.link.sendall(b"+")
                return reply
            more = self.link.recv(65536)
            if not more:
                raise EOFError("QEMU went away")
            self.seen += more

    def numbers(self):
        """The stub's numbers of the control and status registers."""
        text, at = "", 0
        while True:
            part = self.ask(f"qXfer:features:read:riscv-csr.xml:{at:x},7f0")
            text += part[1:]
            at += len(part) - 1
            if part[0] == "l":
                break
        found = {}
        following = 0
        for entry in re.findall(r"<reg [^>]*>", text):
            name = re.search(r'name="([^"]*)"', entry)[1]
            number = re.search(r'regnum="(\d+)"', entry)
            following = int(number[1]) if number else following
            found[name] = following
            following += 1
        return found

    def set_register(self, number, value):
        assert self.ask(f"P{number:x}=" + value.to_bytes(4, "little").hex()) == "OK"

    def register(self, number):
        return int.from_bytes(bytes.fromhex(self.ask(f"p{number:x}")), "little")

    def state(self):
        """The 32 registers and the address."""
        raw = bytes.fromhex(self.ask("g"))
        values = [int.from_bytes(raw[i : i + 4], "little") for i in range(0, 132, 4)]
        return values[:32], values[32]

    def write(self, address, data):
        for at in range(0, len(data), 1024):
            part = data[at : at + 1024]
            assert self.ask(f"M{address + at:x},{len(part):x}:{part.hex()}") == "OK"

    def read(self, address, size):
        data = b""
        while len(data) < size:
            part = min(1024, size - len(data))
            data += bytes.fromhex(self.ask(f"m{address + len(data):x},{part:x}"))
        return data

    def begin(self, address):
        for number in range(1, 32):
            self.set_register(number, 0)
        self.go(address)

    def go(self, address):
        self.set_register(self.mcause, NO_CAUSE)
        self.set_register(PC, address)

    def step(self):
        """Makes a step: the cause and the address of a trap, or None."""
        self.ask("s")
        registers, address = self.state()
        if address == TRAP:
            cause = self.register(self.mcause)
            if cause != NO_CAUSE:
                return registers, address, (cause, self.register(self.mepc))
        return registers, address, None


class LeftOut(Exception):
    """QEMU is another machine than ours here, by design."""


WRITES = {0x37, 0x17, 0x6F, 0x67, 0x03, 0x13, 0x33}


def signed(value, bits):
    return value - (1 << bits) if value >> (bits - 1) & 1 else value


def misaligned(word, registers):
    """Whether a load or a store goes to an address that is no multiple of its width, which QEMU does and ours does not."""
    opcode = word & 0x7F
    kind = word >> 12 & 7
    if opcode == 0x03 and kind in (0, 1, 2, 4, 5):
        offset = signed(word >> 20, 12)
    elif opcode == 0x23 and kind in (0, 1, 2):
        offset = signed(word >> 25 << 5 | word >> 7 & 31, 12)
    else:
        return False
    return (registers[word >> 15 & 31] + offset) % (1 << (kind & 3)) != 0


class Run:
    """What a run did: records of what retired, the cause and the address of the stop, the registers and the memory."""


def run(image, start, most):
    machine = Machine(len(image))
    try:
        machine.write(0, image)
        machine.begin(start)
        registers, address = [0] * 32, start
        run = Run()
        run.records = []
        while True:
            inside = address % 4 == 0 and address + 4 <= len(image)
            word = int.from_bytes(image[address : address + 4], "little") if inside else 0
            if misaligned(word, registers):
                raise LeftOut("a misaligned access")
            after, following, trap = machine.step()
            if trap:
                assert after == registers and trap[1] == address, "a trap that is not precise"
                run.stop = trap
                break
            rd = word >> 7 & 31 if word & 0x7F in WRITES else 0
            for number in range(32):
                assert number == rd or after[number] == registers[number], "another register was written"
            run.records.append((address, word, rd, after[rd] if rd else 0))
            registers, address = after, following
            if len(run.records) > most:
                raise LeftOut("no end")
        run.registers = registers
        run.memory = machine.read(0, len(image))
        executed = {record[0] for record in run.records} | {run.stop[1]}
        for address in executed:
            if run.memory[address : address + 4] != image[address : address + 4]:
                raise LeftOut("a program that writes its own instructions")
        return run
    finally:
        machine.close()
