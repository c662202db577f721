//! Words of an assembler, and the instructions that they say.
use crate::making::reg;
use encoding::{Decoded, decode, encode};
use instructions::Op;

// the registers that it writes and reads, and its number
fn decoded(op: Op, target: u8, first: u8, second: u8, number: u32) -> Decoded {
    Decoded {
        op,
        target: reg(target),
        first: reg(first),
        second: reg(second),
        number,
    }
}

#[test]
fn a_word_of_each_shape(rt: HostRuntime) {
    let cases: [(u32, Decoded); 10] = [
        (0x0043_0821, decoded(Op::Addu, 1, 2, 3, 0)),
        (0x0002_0fc0, decoded(Op::Sll, 1, 2, 0, 31)),
        (0x2441_8000, decoded(Op::Addiu, 1, 2, 0, 0xffff_8000)),
        (0x3c01_8000, decoded(Op::Lui, 1, 0, 0, 0x8000)),
        (0xafdf_7fff, decoded(Op::Sw, 0, 30, 31, 0x7fff)),
        (0x1022_ffff, decoded(Op::Beq, 0, 1, 2, 0x0040_0000)),
        (0x0c10_002d, decoded(Op::Jal, 31, 0, 0, 0x0040_00b4)),
        (0x0040_0809, decoded(Op::Jalr, 1, 2, 0, 0)),
        (0x0085_001a, decoded(Op::Div, 0, 4, 5, 0)),
        (0x0000_f810, decoded(Op::Mfhi, 31, 33, 0, 0)),
    ];
    for (word, wanted) in cases {
        assert_eq!(rt; decode(word, 0x0040_0000), Some(wanted), "{word:?}");
        assert_eq!(rt; encode(&wanted, 0x0040_0000), Some(word), "{wanted:?}");
    }
}

#[test]
fn targets_wrap_and_stay_in_their_region(rt: HostRuntime) {
    let back = decoded(Op::Beq, 0, 0, 0, 0xffff_fffc);
    assert_eq!(rt; decode(0x1000_fffe, 0), Some(back));
    let far = decoded(Op::J, 0, 0, 0, 0x1fff_fffc);
    assert_eq!(rt; decode(0x0bff_ffff, 0x0fff_fffc), Some(far));
}

#[test]
fn no_word_for_what_does_not_fit(rt: HostRuntime) {
    let cases = [
        decoded(Op::Addiu, 1, 2, 0, 0x8000),
        decoded(Op::Ori, 1, 2, 0, 0x1_0000),
        decoded(Op::Sll, 1, 2, 0, 32),
        decoded(Op::Addu, 1, 2, 3, 4),
        decoded(Op::Sw, 1, 2, 3, 4),
        decoded(Op::Beq, 0, 1, 2, 0x0042_0004),
        decoded(Op::Beq, 0, 1, 2, 0x0040_0002),
        decoded(Op::J, 0, 0, 0, 0x1040_0000),
        decoded(Op::Jal, 0, 0, 0, 0x0040_0000),
        decoded(Op::Mult, 1, 2, 3, 0),
        decoded(Op::Mflo, 1, 33, 0, 0),
        decoded(Op::Mthi, 0, 1, 0, 0),
    ];
    for wanted in cases {
        assert_eq!(rt; encode(&wanted, 0x0040_0000), None, "{wanted:?}");
    }
}
