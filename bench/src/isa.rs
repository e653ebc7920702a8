//! Instruction words of RV32I, taken apart, and what they compute.

/// What an instruction does. Immediate arithmetic is the register arithmetic of the same name, with
/// `x0` for the second source; `lui` adds its immediate to `x0`, and `fence` adds nothing to nothing.
#[derive(Clone, Copy, PartialEq, Eq, Debug)]
#[repr(u8)]
pub enum Op {
    Add,
    Sub,
    Sll,
    Slt,
    Sltu,
    Xor,
    Srl,
    Sra,
    Or,
    And,
    Auipc,
    Jal,
    Jalr,
    Beq,
    Bne,
    Blt,
    Bge,
    Bltu,
    Bgeu,
    Lb,
    Lh,
    Lw,
    Lbu,
    Lhu,
    Sb,
    Sh,
    Sw,
    Illegal,
    Ebreak,
    Ecall,
}

impl Op {
    #[inline]
    pub fn is_branch(self) -> bool {
        self as u8 >= Op::Beq as u8 && self as u8 <= Op::Bgeu as u8
    }

    #[inline]
    pub fn is_load(self) -> bool {
        self as u8 >= Op::Lb as u8 && self as u8 <= Op::Lhu as u8
    }

    #[inline]
    pub fn is_store(self) -> bool {
        self as u8 >= Op::Sb as u8 && self as u8 <= Op::Sw as u8
    }

    /// How many bytes a load or a store covers, less 1: the bits that an aligned address has clear.
    #[inline]
    pub fn alignment(self) -> u32 {
        match self {
            Op::Lh | Op::Lhu | Op::Sh => 1,
            Op::Lw | Op::Sw => 3,
            _ => 0,
        }
    }
}

/// The causes of a stop.
pub mod cause {
    pub const MISALIGNED_JUMP: u8 = 0;
    pub const OUTSIDE: u8 = 1;
    pub const ILLEGAL: u8 = 2;
    pub const EBREAK: u8 = 3;
    pub const MISALIGNED_LOAD: u8 = 4;
    pub const LOAD_OUTSIDE: u8 = 5;
    pub const MISALIGNED_STORE: u8 = 6;
    pub const STORE_OUTSIDE: u8 = 7;
    pub const ECALL: u8 = 11;
    pub const ALL: [u8; 9] = [0, 1, 2, 3, 4, 5, 6, 7, 11];
}

/// The number that stands for "writes no register". A register file has a place for it, which nobody reads.
pub const NO_REGISTER: u8 = 32;

/// A word taken apart. A source that is not read is 0; the second operand of arithmetic is the
/// second source plus the immediate, of which one is 0.
#[derive(Clone, Copy, Debug)]
pub struct Decoded {
    pub op: Op,
    pub rd: u8,
    pub rs1: u8,
    pub rs2: u8,
    pub imm: u32,
}

impl Decoded {
    pub const NOTHING: Decoded = Decoded {
        op: Op::Add,
        rd: NO_REGISTER,
        rs1: 0,
        rs2: 0,
        imm: 0,
    };

    #[inline]
    fn reads_none(op: Op, word: u32, imm: u32) -> Decoded {
        Decoded {
            op,
            rd: rd(word),
            rs1: 0,
            rs2: 0,
            imm,
        }
    }

    #[inline]
    fn reads_one(op: Op, word: u32, imm: u32) -> Decoded {
        Decoded {
            op,
            rd: rd(word),
            rs1: rs1(word),
            rs2: 0,
            imm,
        }
    }

    #[inline]
    fn reads_two(op: Op, word: u32, rd: u8, imm: u32) -> Decoded {
        Decoded {
            op,
            rd,
            rs1: rs1(word),
            rs2: rs2(word),
            imm,
        }
    }

    #[inline]
    fn marked(op: Op) -> Decoded {
        Decoded {
            op,
            ..Decoded::NOTHING
        }
    }
}

#[inline]
fn rd(word: u32) -> u8 {
    let rd = (word >> 7 & 31) as u8;
    if rd == 0 { NO_REGISTER } else { rd }
}

#[inline]
fn rs1(word: u32) -> u8 {
    (word >> 15 & 31) as u8
}

#[inline]
fn rs2(word: u32) -> u8 {
    (word >> 20 & 31) as u8
}

#[inline]
fn imm_i(word: u32) -> u32 {
    (word as i32 >> 20) as u32
}

#[inline]
fn imm_s(word: u32) -> u32 {
    (word as i32 >> 25 << 5) as u32 | word >> 7 & 0x1f
}

#[inline]
fn imm_b(word: u32) -> u32 {
    (word as i32 >> 31 << 12) as u32
        | (word << 4 & 0x800)
        | (word >> 20 & 0x7e0)
        | (word >> 7 & 0x1e)
}

#[inline]
fn imm_u(word: u32) -> u32 {
    word & 0xffff_f000
}

#[inline]
fn imm_j(word: u32) -> u32 {
    (word as i32 >> 31 << 20) as u32
        | (word & 0xf_f000)
        | (word >> 9 & 0x800)
        | (word >> 20 & 0x7fe)
}

/// What a word is.
#[inline(always)]
pub fn decode(word: u32) -> Decoded {
    let f3 = word >> 12 & 7;
    let f7 = word >> 25;
    match word & 0x7f {
        0x37 => Decoded::reads_none(Op::Add, word, imm_u(word)),
        0x17 => Decoded::reads_none(Op::Auipc, word, imm_u(word)),
        0x6f => Decoded::reads_none(Op::Jal, word, imm_j(word)),
        0x67 if f3 == 0 => Decoded::reads_one(Op::Jalr, word, imm_i(word)),
        0x63 => {
            const BRANCHES: [Op; 8] = [
                Op::Beq,
                Op::Bne,
                Op::Illegal,
                Op::Illegal,
                Op::Blt,
                Op::Bge,
                Op::Bltu,
                Op::Bgeu,
            ];
            match BRANCHES[f3 as usize] {
                Op::Illegal => Decoded::marked(Op::Illegal),
                op => Decoded::reads_two(op, word, NO_REGISTER, imm_b(word)),
            }
        }
        0x03 => {
            const LOADS: [Op; 8] = [
                Op::Lb,
                Op::Lh,
                Op::Lw,
                Op::Illegal,
                Op::Lbu,
                Op::Lhu,
                Op::Illegal,
                Op::Illegal,
            ];
            match LOADS[f3 as usize] {
                Op::Illegal => Decoded::marked(Op::Illegal),
                op => Decoded::reads_one(op, word, imm_i(word)),
            }
        }
        0x23 => match f3 {
            0 => Decoded::reads_two(Op::Sb, word, NO_REGISTER, imm_s(word)),
            1 => Decoded::reads_two(Op::Sh, word, NO_REGISTER, imm_s(word)),
            2 => Decoded::reads_two(Op::Sw, word, NO_REGISTER, imm_s(word)),
            _ => Decoded::marked(Op::Illegal),
        },
        0x13 => match (f3, f7) {
            (0, _) => Decoded::reads_one(Op::Add, word, imm_i(word)),
            (2, _) => Decoded::reads_one(Op::Slt, word, imm_i(word)),
            (3, _) => Decoded::reads_one(Op::Sltu, word, imm_i(word)),
            (4, _) => Decoded::reads_one(Op::Xor, word, imm_i(word)),
            (6, _) => Decoded::reads_one(Op::Or, word, imm_i(word)),
            (7, _) => Decoded::reads_one(Op::And, word, imm_i(word)),
            (1, 0) => Decoded::reads_one(Op::Sll, word, word >> 20 & 31),
            (5, 0) => Decoded::reads_one(Op::Srl, word, word >> 20 & 31),
            (5, 0x20) => Decoded::reads_one(Op::Sra, word, word >> 20 & 31),
            _ => Decoded::marked(Op::Illegal),
        },
        0x33 => {
            const ARITHMETIC: [Op; 8] = [
                Op::Add,
                Op::Sll,
                Op::Slt,
                Op::Sltu,
                Op::Xor,
                Op::Srl,
                Op::Or,
                Op::And,
            ];
            match (f7, f3) {
                (0, _) => Decoded::reads_two(ARITHMETIC[f3 as usize], word, rd(word), 0),
                (0x20, 0) => Decoded::reads_two(Op::Sub, word, rd(word), 0),
                (0x20, 5) => Decoded::reads_two(Op::Sra, word, rd(word), 0),
                _ => Decoded::marked(Op::Illegal),
            }
        }
        0x0f if f3 == 0 => Decoded::NOTHING,
        0x73 if word == 0x0000_0073 => Decoded::marked(Op::Ecall),
        0x73 if word == 0x0010_0073 => Decoded::marked(Op::Ebreak),
        _ => Decoded::marked(Op::Illegal),
    }
}

/// What an instruction comes to in execute.
#[derive(Clone, Copy, Debug, PartialEq, Eq)]
pub struct Executed {
    /// The value to write, or the address of an access.
    pub result: u32,
    pub next: u32,
    /// Whether a branch is taken.
    pub taken: bool,
    /// A jump or a taken branch, which must go to a multiple of 4.
    pub jumps: bool,
}

#[inline(always)]
pub fn execute(op: Op, address: u32, imm: u32, a: u32, b: u32) -> Executed {
    let straight = address.wrapping_add(4);
    let y = b.wrapping_add(imm);
    let value = |result: u32| Executed {
        result,
        next: straight,
        taken: false,
        jumps: false,
    };
    let branch = |taken: bool| Executed {
        result: 0,
        next: if taken {
            address.wrapping_add(imm)
        } else {
            straight
        },
        taken,
        jumps: taken,
    };
    match op {
        Op::Add => value(a.wrapping_add(y)),
        Op::Sub => value(a.wrapping_sub(y)),
        Op::Sll => value(a << (y & 31)),
        Op::Slt => value(((a as i32) < y as i32) as u32),
        Op::Sltu => value((a < y) as u32),
        Op::Xor => value(a ^ y),
        Op::Srl => value(a >> (y & 31)),
        Op::Sra => value((a as i32 >> (y & 31)) as u32),
        Op::Or => value(a | y),
        Op::And => value(a & y),
        Op::Auipc => value(address.wrapping_add(imm)),
        Op::Lb | Op::Lh | Op::Lw | Op::Lbu | Op::Lhu | Op::Sb | Op::Sh | Op::Sw => {
            value(a.wrapping_add(imm))
        }
        Op::Jal => Executed {
            result: straight,
            next: address.wrapping_add(imm),
            taken: false,
            jumps: true,
        },
        Op::Jalr => Executed {
            result: straight,
            next: a.wrapping_add(imm) & !1,
            taken: false,
            jumps: true,
        },
        Op::Beq => branch(a == b),
        Op::Bne => branch(a != b),
        Op::Blt => branch((a as i32) < b as i32),
        Op::Bge => branch(a as i32 >= b as i32),
        Op::Bltu => branch(a < b),
        Op::Bgeu => branch(a >= b),
        Op::Illegal | Op::Ebreak | Op::Ecall => value(0),
    }
}

/// The value that a load at `address` makes of the word that holds it.
#[inline(always)]
pub fn loaded(op: Op, address: u32, word: u32) -> u32 {
    let low = word >> (8 * (address & 3));
    match op {
        Op::Lb => low as u8 as i8 as u32,
        Op::Lh => low as u16 as i16 as u32,
        Op::Lbu => low as u8 as u32,
        Op::Lhu => low as u16 as u32,
        _ => low,
    }
}

/// The word that a store puts, and a mask of the bits that it sets.
#[inline(always)]
pub fn stored(op: Op, address: u32, value: u32) -> (u32, u32) {
    let shift = 8 * (address & 3);
    let mask: u32 = match op {
        Op::Sb => 0xff,
        Op::Sh => 0xffff,
        _ => 0xffff_ffff,
    };
    (value << shift, mask << shift)
}

/// Instruction words, from their fields.
pub mod word {
    pub fn r(f7: u32, rs2: u32, rs1: u32, f3: u32, rd: u32) -> u32 {
        f7 << 25 | rs2 << 20 | rs1 << 15 | f3 << 12 | rd << 7 | 0x33
    }

    pub fn i(imm: i32, rs1: u32, f3: u32, rd: u32, opcode: u32) -> u32 {
        (imm as u32) << 20 | rs1 << 15 | f3 << 12 | rd << 7 | opcode
    }

    pub fn s(imm: i32, rs2: u32, rs1: u32, f3: u32) -> u32 {
        let imm = imm as u32;
        (imm >> 5 & 0x7f) << 25 | rs2 << 20 | rs1 << 15 | f3 << 12 | (imm & 0x1f) << 7 | 0x23
    }

    pub fn b(imm: i32, rs2: u32, rs1: u32, f3: u32) -> u32 {
        let imm = imm as u32;
        (imm >> 12 & 1) << 31
            | (imm >> 5 & 0x3f) << 25
            | rs2 << 20
            | rs1 << 15
            | f3 << 12
            | (imm >> 1 & 0xf) << 8
            | (imm >> 11 & 1) << 7
            | 0x63
    }

    pub fn u(imm: u32, rd: u32, opcode: u32) -> u32 {
        imm & 0xffff_f000 | rd << 7 | opcode
    }

    pub fn j(imm: i32, rd: u32) -> u32 {
        let imm = imm as u32;
        (imm >> 20 & 1) << 31
            | (imm >> 1 & 0x3ff) << 21
            | (imm >> 11 & 1) << 20
            | (imm >> 12 & 0xff) << 12
            | rd << 7
            | 0x6f
    }
}

#[cfg(test)]
mod tests {
    use super::*;

    #[test]
    fn words_of_the_manual() {
        let addi = decode(0x0020_0093);
        assert_eq!((addi.op, addi.rd, addi.rs1, addi.imm), (Op::Add, 1, 0, 2));
        let bne = decode(0xfe00_9ee3);
        assert_eq!(
            (bne.op, bne.rd, bne.rs1, bne.rs2, bne.imm as i32),
            (Op::Bne, NO_REGISTER, 1, 0, -4)
        );
        let srai = decode(0x41f1_d193);
        assert_eq!((srai.op, srai.rd, srai.rs1, srai.imm), (Op::Sra, 3, 3, 31));
        let jal = decode(0x0080_00ef);
        assert_eq!((jal.op, jal.rd, jal.imm), (Op::Jal, 1, 8));
        for word in [0x0000_100f, 0x0200_9093, 0x0000_0000] {
            assert_eq!(decode(word).op, Op::Illegal);
        }
    }

    #[test]
    fn immediates_at_their_ends() {
        assert_eq!(decode(0x8000_0063).imm as i32, -4096);
        assert_eq!(decode(0x7e00_0fe3).imm, 4094);
        assert_eq!(decode(0x8000_006f).imm as i32, -1_048_576);
        assert_eq!(decode(0x7fff_f06f).imm, 1_048_574);
        assert_eq!(decode(0xfe00_2fa3).imm as i32, -1);
        assert_eq!(decode(0x8000_0003).imm as i32, -2048);
        assert_eq!(decode(0xffff_f0b7).imm, 0xffff_f000);
    }
}
