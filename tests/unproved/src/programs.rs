//! Instructions and their registers, programs, the limits of a configuration, and what predictors learn.
use crate::making::{numbered, reg};
use instructions::{
    BadConfig, Bimod, Config, Half, Instr, Memory, NotTaken, Op, Predictor, Program, Reg, Stop,
    Taken, pc_plus_4,
};
use std::alloc::Global;
use std::test::Fail;

const MINUS_1: u32 = 0xffff_ffff;

const PC: u32 = 0x0040_0010;

// a jump to the instruction behind it, and data of one word
fn jump_and_break(alloc: Global) -> Result<Program, Fail> {
    let code = Vec::from_array(
        alloc,
        [numbered(Op::J, 0x0040_0004), numbered(Op::Break, 0)],
    )?;
    let bytes = Vec::from_array(alloc, [2, 1, 0, 0])?;
    Ok(Program::new(code, bytes))
}

#[test]
fn names_registers_of_an_instruction(rt: HostRuntime) {
    let cases: [(Op, bool, bool, bool); 8] = [
        (Op::Addu, true, true, true),
        (Op::Sll, true, false, true),
        (Op::Lui, false, false, true),
        (Op::Sw, true, true, false),
        (Op::Beq, true, true, false),
        (Op::Jal, false, false, true),
        (Op::Jr, true, false, false),
        (Op::Break, false, false, false),
    ];
    for (op, first, second, written) in cases {
        let i = numbered(op, 0);
        assert_eq!(rt; i.source(1), if first { Some(Reg::ZERO) } else { None });
        assert_eq!(rt; i.source(2), if second { Some(Reg::ZERO) } else { None });
        assert_eq!(rt; i.source(3), None);
        assert_eq!(rt;
            i.written(Half::Low),
            if written { Some(Reg::LINK) } else { None }
        );
    }
}

#[test]
fn names_the_first_bad_field(rt: HostRuntime) {
    let cases: [([u64; 7], Option<BadConfig>); 13] = [
        ([16, 8, 2, 1, 1, 0, 1], None),
        (
            [32, 32, 64, 64, 0x0fff_fffe, 0xffff_ffff, 0xffff_ffff],
            None,
        ),
        ([3, 1, 0, 0, 0, 1 << 32, 0], Some(BadConfig::Ring)),
        ([64, 8, 2, 1, 1, 0, 1], Some(BadConfig::Ring)),
        ([16, 1, 0, 1, 1, 0, 1], Some(BadConfig::Queue)),
        ([16, 17, 2, 1, 1, 0, 1], Some(BadConfig::Queue)),
        ([16, 8, 65, 0, 1, 0, 1], Some(BadConfig::Units)),
        ([16, 8, 1, 65, 0, 0, 1], Some(BadConfig::Places)),
        ([16, 8, 1, 1, 0, 1 << 32, 1], Some(BadConfig::Tag)),
        ([16, 8, 1, 1, 0x0fff_ffff, 0, 1], Some(BadConfig::Tag)),
        ([16, 8, 1, 1, 1, 1 << 32, 0], Some(BadConfig::Limit)),
        ([16, 8, 1, 1, 1, 0, 0], Some(BadConfig::Turns)),
        ([16, 8, 1, 1, 1, 0, 1 << 32], Some(BadConfig::Turns)),
    ];
    for (s, wanted) in cases {
        let made = Config::new(s[0], s[1], s[2], s[3], s[4], s[5], s[6]);
        assert_eq!(rt; made.err(), wanted);
    }
}

#[test]
fn bimodal_counters_learn(rt: HostRuntime) {
    const TO: u32 = 0x0040_0100;
    const ON: u32 = 0x0040_0014;
    let branch = numbered(Op::Bne, TO);
    let mut bimod = Bimod::new();
    let steps: [(u32, u32); 8] = [
        (TO, TO),
        (ON, ON),
        (TO, TO),
        (TO, TO),
        (TO, TO),
        (ON, TO),
        (ON, ON),
        (ON, ON),
    ];
    assert_eq!(rt; bimod.predict(PC, &branch), ON);
    for (told, wanted) in steps {
        bimod.told(PC, told);
        assert_eq!(rt; bimod.predict(PC, &branch), wanted);
    }
    bimod.told(PC + 4 * 2048, TO);
    bimod.told(PC + 4 * 2048, TO);
    assert_eq!(rt; bimod.predict(PC, &branch), TO);
    assert_eq!(rt; bimod.predict(PC, &numbered(Op::Jr, 0)), ON);
    assert_eq!(rt; Taken.predict(PC, &branch), TO);
    assert_eq!(rt; NotTaken.predict(PC, &branch), ON);
}

#[test]
fn there_are_34_registers(rt: HostRuntime) {
    assert_eq!(rt; Reg::new(31), Some(Reg::LINK));
    assert_eq!(rt; Reg::new(32), Some(Reg::LO));
    assert_eq!(rt; Reg::new(33), Some(Reg::HI));
    assert_eq!(rt; Reg::new(34), None);
    assert_eq!(rt; Reg::general(31), Some(Reg::LINK));
    assert_eq!(rt; Reg::general(32), None);
    assert_eq!(rt; Stop::BadPc.code(), 4);
}

#[test]
fn a_copy_is_the_same_program(rt: HostRuntime) -> Result<(), Fail> {
    let program = jump_and_break(rt.alloc())?;
    let copy = program.copied(rt.alloc()).map_err(|_| "no memory")?;
    assert!(rt; copy.size() == 4 && copy.len() == 2);
    assert_eq!(rt; copy.bytes(), [2, 1, 0, 0].as_slice());
    assert_eq!(rt; copy.byte(1), 1);
    assert_eq!(rt; copy.is_empty(), false);
    assert_eq!(rt; copy.instr(1).op(), Op::Break);
    Ok(())
}

#[test]
fn instructions_are_fetched_at_their_addresses(rt: HostRuntime) -> Result<(), Fail> {
    let program = jump_and_break(rt.alloc())?;
    let cases: [(u32, Option<Op>); 5] = [
        (0x0040_0000, Some(Op::J)),
        (0x0040_0004, Some(Op::Break)),
        (0x0040_0008, None),
        (0x0040_0002, None),
        (0, None),
    ];
    for (pc, op) in cases {
        let found = program.fetch(pc);
        assert_eq!(rt; found.map(|instr| instr.op()), op);
    }
    Ok(())
}

#[test]
fn an_instruction_has_its_registers(rt: HostRuntime) {
    let sum = Instr::new(Op::Addiu, reg(4), reg(5), Reg::ZERO, MINUS_1);
    assert_eq!(rt; sum.op(), Op::Addiu);
    assert_eq!(rt; sum.number(), MINUS_1);
    assert_eq!(rt; sum.destination(Half::Low).number(), 4);
    assert_eq!(rt; sum.fixed_next(Half::Low, PC), Some(PC + 4));
    let store = Instr::new(Op::Sw, Reg::ZERO, reg(7), reg(6), 8);
    assert_eq!(rt; store.first().number(), 7);
    assert_eq!(rt; store.second().number(), 6);
    assert_eq!(rt; store.destination(Half::Low), Reg::ZERO);
    let branch = numbered(Op::Beq, 0x0040_000c);
    assert_eq!(rt; branch.fixed_next(Half::Low, PC), None);
    let call = numbered(Op::Jal, 0x0040_000c);
    assert_eq!(rt; call.fixed_next(Half::Low, PC), Some(0x0040_000c));
    assert_eq!(rt; pc_plus_4(0xffff_fffc), 0);
}

#[test]
fn limits_of_a_program_are_exact(rt: HostRuntime) {
    let cases: [(usize, usize, bool); 6] = [
        (0, 0, true),
        (16_384, 65_536, true),
        (16_385, 0, false),
        (0, 65_540, false),
        (1, 65_534, false),
        (1, 65_532, true),
    ];
    for (instructions, bytes, fits) in cases {
        assert_eq!(rt; Program::fits(instructions, bytes), fits);
    }
}

#[test]
fn a_configuration_has_its_numbers(rt: HostRuntime) -> Result<(), Fail> {
    let config = Config::new(16, 8, 2, 3, 4, 5, 6).map_err(|_| "refused")?;
    assert_eq!(rt; config.ring(), 16);
    assert_eq!(rt; config.queue(), 8);
    assert_eq!(rt; config.units(), 2);
    assert_eq!(rt; config.places(), 3);
    assert_eq!(rt; config.first_tag(), 4);
    assert_eq!(rt; config.limit(), 5);
    assert_eq!(rt; config.turns(), 6);
    Ok(())
}

#[test]
fn refusals_say_why(rt: HostRuntime) -> Result<(), Fail> {
    let bad = BadConfig::Queue;
    let text = format!(in rt.alloc(); "{bad}")?;
    assert_eq!(rt; text.as_str(), "the queue size is from 2 to the ring size");
    let memory = Memory;
    let text = format!(in rt.alloc(); "{memory}")?;
    assert_eq!(rt; text.as_str(), "out of memory");
    Ok(())
}

#[test]
fn two_instructions_differ_in_one_part(rt: HostRuntime) {
    let one = Instr::new(Op::Addu, Reg::LINK, Reg::LO, Reg::HI, 7);
    assert!(rt; one.is_same(&one));
    let others = [
        Instr::new(Op::Subu, Reg::LINK, Reg::LO, Reg::HI, 7),
        Instr::new(Op::Addu, Reg::LO, Reg::LO, Reg::HI, 7),
        Instr::new(Op::Addu, Reg::LINK, Reg::HI, Reg::HI, 7),
        Instr::new(Op::Addu, Reg::LINK, Reg::LO, Reg::LO, 7),
        Instr::new(Op::Addu, Reg::LINK, Reg::LO, Reg::HI, 8),
    ];
    for (at, other) in others.iter().enumerate() {
        assert!(rt; !one.is_same(other), "{at}");
    }
}
