//! Registers and instructions by their numbers.
use instructions::{Instr, Op, Reg};

pub fn reg(number: u8) -> Reg {
    Reg::new(number).unwrap_or(Reg::ZERO)
}

// the registers that it writes and reads, and its number
pub fn instr(op: Op, target: u8, first: u8, second: u8, number: u32) -> Instr {
    Instr {
        op,
        target: reg(target),
        first: reg(first),
        second: reg(second),
        number,
    }
}

// registers 31, 0 and 0, and a number
pub fn numbered(op: Op, number: u32) -> Instr {
    Instr::new(op, Reg::LINK, Reg::ZERO, Reg::ZERO, number)
}
