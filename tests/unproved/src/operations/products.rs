//! Border values of products and quotients, and the registers of the operations that make them.
use crate::making::instr;
use instructions::{Half, Kind, Op, Outcome, Reg, outcome, outcome_of};

const MINUS_1: u32 = 0xffff_ffff;

const MINUS_7: u32 = 0xffff_fff9;

const LEAST: u32 = 0x8000_0000;

const MOST: u32 = 0x7fff_ffff;

const PC: u32 = 0x0040_0000;

#[test]
fn products_and_quotients(rt: HostRuntime) {
    let cases: [(Op, u32, u32, u32, u32); 20] = [
        (Op::Mult, 0xffff_fffa, 4, 0xffff_ffe8, MINUS_1),
        (Op::Mult, MINUS_1, MINUS_1, 1, 0),
        (Op::Mult, LEAST, LEAST, 0, 0x4000_0000),
        (Op::Mult, LEAST, MOST, LEAST, 0xc000_0000),
        (Op::Mult, 0, LEAST, 0, 0),
        (Op::Multu, MINUS_1, MINUS_1, 1, 0xffff_fffe),
        (Op::Multu, LEAST, 2, 0, 1),
        (Op::Div, MINUS_7, 2, 0xffff_fffd, MINUS_1),
        (Op::Div, 7, 0xffff_fffe, 0xffff_fffd, 1),
        (Op::Div, MINUS_7, 0xffff_fffe, 3, MINUS_1),
        (Op::Div, 7, 2, 3, 1),
        (Op::Div, LEAST, MINUS_1, LEAST, 0),
        (Op::Div, LEAST, 1, LEAST, 0),
        (Op::Div, MINUS_7, 0, 0, MINUS_7),
        (Op::Div, 7, LEAST, 0, 7),
        (Op::Divu, MINUS_7, 2, 0x7fff_fffc, 1),
        (Op::Divu, LEAST, MINUS_1, 0, LEAST),
        (Op::Divu, 9, 0, 0, 9),
        (Op::Divu, 0, 0, 0, 0),
        (Op::Divu, 12, 4, 3, 0),
    ];
    for (op, a, b, low, high) in cases {
        let whole = outcome(&instr(op, 0, 31, 0, 0), PC, a, b, 0);
        assert_eq!(rt; whole, Outcome::Pair(low, high), "{:?}", (a, b));
        let first = outcome_of(&instr(op, 0, 31, 0, 0), Half::Low, PC, a, b, 0);
        assert_eq!(rt; first, Outcome::Value(low));
        let second = outcome_of(&instr(op, 0, 31, 0, 0), Half::High, PC, a, b, 0);
        assert_eq!(rt; second, Outcome::Value(high));
    }
}

#[test]
fn moves_pass_their_source_on(rt: HostRuntime) {
    for op in [Op::Mflo, Op::Mfhi, Op::Mtlo, Op::Mthi] {
        assert!(rt; !op.is_pair());
        assert_eq!(rt;
            outcome(&instr(op, 0, 31, 0, 0), PC, LEAST, 5, 0),
            Outcome::Value(LEAST)
        );
    }
}

#[test]
fn halves_write_lo_and_hi(rt: HostRuntime) {
    for op in [Op::Mult, Op::Multu, Op::Div, Op::Divu] {
        let pair = instr(op, 0, 31, 0, 0);
        assert!(rt; op.is_pair());
        assert!(rt; op.kind() == Kind::Computes);
        assert_eq!(rt; pair.source(1), Some(Reg::LINK));
        assert_eq!(rt; pair.source(2), Some(Reg::ZERO));
        assert_eq!(rt; pair.written(Half::Low), Some(Reg::LO));
        assert_eq!(rt; pair.written(Half::High), Some(Reg::HI));
        assert_eq!(rt; pair.destination(Half::High), Reg::HI);
        assert!(rt; pair.is_first_half(Half::Low));
        assert!(rt; !pair.is_first_half(Half::High));
        assert_eq!(rt; pair.fixed_next(Half::Low, PC), Some(PC));
        assert_eq!(rt; pair.fixed_next(Half::High, PC), Some(PC + 4));
    }
}
