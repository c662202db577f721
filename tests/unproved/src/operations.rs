//! Border values of the operations, and their kinds.
mod products;

use crate::making::numbered;
use instructions::{Kind, Op, Outcome, Stop, loaded, outcome};

const MINUS_1: u32 = 0xffff_ffff;

const LEAST: u32 = 0x8000_0000;

const MOST: u32 = 0x7fff_ffff;

const PC: u32 = 0x0040_0010;

#[test]
fn computes_values(rt: HostRuntime) {
    let cases: [(Op, u32, u32, u32, u32); 30] = [
        (Op::Addu, MINUS_1, 2, 0, 1),
        (Op::Subu, 1, 2, 0, MINUS_1),
        (Op::Add, MOST, LEAST, 0, MINUS_1),
        (Op::Sub, LEAST, MINUS_1, 0, 0x8000_0001),
        (Op::And, 0xff00, 0x0ff0, 0, 0x0f00),
        (Op::Or, 0xff00, 0x0ff0, 0, 0xfff0),
        (Op::Xor, 0xff00, 0x0ff0, 0, 0xf0f0),
        (Op::Nor, 0xff00, 0x0ff0, 0, 0xffff_000f),
        (Op::Slt, MINUS_1, 0, 0, 1),
        (Op::Slt, 0, LEAST, 0, 0),
        (Op::Sltu, MINUS_1, 0, 0, 0),
        (Op::Sltu, 0, LEAST, 0, 1),
        (Op::Sll, 0x8000_0001, 0, 1, 2),
        (Op::Srl, LEAST, 0, 31, 1),
        (Op::Sra, LEAST, 0, 31, MINUS_1),
        (Op::Sra, MOST, 0, 30, 1),
        (Op::Sllv, 1, 33, 0, 2),
        (Op::Srlv, LEAST, 63, 0, 1),
        (Op::Srav, 0xffff_fff8, 33, 0, 0xffff_fffc),
        (Op::Addiu, 5, 0, MINUS_1, 4),
        (Op::Addi, MOST, 0, MINUS_1, 0x7fff_fffe),
        (Op::Slti, LEAST, 0, 0xffff_8000, 1),
        (Op::Slti, 0, 0, MINUS_1, 0),
        (Op::Sltiu, 0, 0, MINUS_1, 1),
        (Op::Andi, MINUS_1, 0, 0xffff, 0xffff),
        (Op::Ori, 0x1_0000, 0, 0xffff, 0x1_ffff),
        (Op::Xori, 0xffff, 0, 0xff, 0xff00),
        (Op::Lui, 0, 0, 0x8000, LEAST),
        (Op::Subu, 0, 0, 0, 0),
        (Op::Sll, 0, 0, 0, 0),
    ];
    for (op, a, b, i, wanted) in cases {
        let got = outcome(&numbered(op, i), PC, a, b, 0);
        assert_eq!(rt; got, Outcome::Value(wanted), "{:?}", (a, b, i));
    }
}

#[test]
fn stops_at_signed_overflow_and_break(rt: HostRuntime) {
    let cases: [(Op, u32, u32, u32, Stop); 6] = [
        (Op::Add, MOST, 1, 0, Stop::Overflow),
        (Op::Add, LEAST, MINUS_1, 0, Stop::Overflow),
        (Op::Sub, LEAST, 1, 0, Stop::Overflow),
        (Op::Sub, 0, LEAST, 0, Stop::Overflow),
        (Op::Addi, LEAST, 0, MINUS_1, Stop::Overflow),
        (Op::Break, 0, 0, 0, Stop::Break),
    ];
    for (op, a, b, i, wanted) in cases {
        let got = outcome(&numbered(op, i), PC, a, b, 0);
        assert_eq!(rt; got, Outcome::Stop(wanted), "{:?}", (a, b, i));
    }
}

#[test]
fn jumps_and_branches(rt: HostRuntime) {
    const TO: u32 = 0x0040_0100;
    const ON: u32 = 0x0040_0014;
    let cases: [(Op, u32, u32, u32); 17] = [
        (Op::Beq, 7, 7, TO),
        (Op::Beq, 7, 8, ON),
        (Op::Bne, 7, 7, ON),
        (Op::Bne, 7, 8, TO),
        (Op::Blez, 0, 0, TO),
        (Op::Blez, LEAST, 0, TO),
        (Op::Blez, 1, 0, ON),
        (Op::Bgtz, 0, 0, ON),
        (Op::Bgtz, MOST, 0, TO),
        (Op::Bltz, 0, 0, ON),
        (Op::Bltz, MINUS_1, 0, TO),
        (Op::Bgez, 0, 0, TO),
        (Op::Bgez, LEAST, 0, ON),
        (Op::J, 0, 0, TO),
        (Op::Jal, 0, 0, TO),
        (Op::Jr, 9, 0, 9),
        (Op::Jalr, 9, 0, 9),
    ];
    for (op, a, b, wanted) in cases {
        let got = outcome(&numbered(op, TO), PC, a, b, 0);
        assert_eq!(rt; got, Outcome::Next(wanted), "{:?}", (a, b));
    }
}

#[test]
fn checks_addresses(rt: HostRuntime) {
    let cases: [(Op, u32, u32, Outcome); 9] = [
        (Op::Lw, 4, 0, Outcome::Address(4)),
        (Op::Lw, 8, 0, Outcome::Stop(Stop::OutOfRange)),
        (Op::Lw, 9, 0, Outcome::Stop(Stop::Unaligned)),
        (Op::Sh, 6, 0, Outcome::Address(6)),
        (Op::Sh, 7, 0, Outcome::Stop(Stop::Unaligned)),
        (Op::Sb, 7, 0, Outcome::Address(7)),
        (Op::Sb, 8, 0, Outcome::Stop(Stop::OutOfRange)),
        (Op::Lbu, 0, MINUS_1, Outcome::Stop(Stop::OutOfRange)),
        (Op::Lw, 8, 0xffff_fffc, Outcome::Address(4)),
    ];
    for (op, a, offset, wanted) in cases {
        let got = outcome(&numbered(op, offset), PC, a, 0, 8);
        assert_eq!(rt; got, wanted, "{:?}", (a, offset));
    }
}

#[test]
fn extends_loaded_bytes(rt: HostRuntime) {
    let cases: [(Op, u32, u32); 7] = [
        (Op::Lb, 0x80, 0xffff_ff80),
        (Op::Lb, 0x7f, 0x7f),
        (Op::Lbu, 0x80, 0x80),
        (Op::Lh, 0x8000, 0xffff_8000),
        (Op::Lh, 0x7fff, 0x7fff),
        (Op::Lhu, 0x8000, 0x8000),
        (Op::Lw, LEAST, LEAST),
    ];
    for (op, raw, wanted) in cases {
        assert_eq!(rt; loaded(op, raw), wanted, "{raw:?}");
    }
}

#[test]
fn sorts_operations(rt: HostRuntime) {
    let cases: [(Op, Kind, u32, bool); 9] = [
        (Op::Lui, Kind::Computes, 4, false),
        (Op::Break, Kind::Computes, 4, false),
        (Op::Lb, Kind::Loads, 1, false),
        (Op::Lhu, Kind::Loads, 2, false),
        (Op::Sh, Kind::Stores, 2, false),
        (Op::Sw, Kind::Stores, 4, false),
        (Op::Bgez, Kind::Jumps, 4, true),
        (Op::Jr, Kind::Jumps, 4, false),
        (Op::Jalr, Kind::Links, 4, false),
    ];
    for (op, kind, width, branch) in cases {
        assert!(rt; op.kind() == kind);
        assert_eq!(rt; op.width(), width);
        assert_eq!(rt; op.is_branch(), branch);
    }
}
