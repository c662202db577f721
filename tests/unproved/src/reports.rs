//! Reports, word by word.
use instructions::{End, Ending, Stop};
use isa::{FaultKind, TextFault, fault_text, report_text};
use std::alloc::Global;
use std::test::Fail;

fn end(alloc: Global, outcome: Ending, memory: &[u8]) -> Result<End, Fail> {
    let mut registers = [0; 34];
    registers[2] = 0x0a;
    registers[31] = 0xfedc_ba98;
    registers[32] = 0xffff_ffe8;
    registers[33] = 0xffff_ffff;
    Ok(End {
        n: 4_294_967_296,
        pc: 0x0040_0008,
        outcome,
        registers,
        memory: Vec::from_slice(alloc, memory)?,
    })
}

#[test]
fn registers_and_words_that_are_0_are_left_out(rt: HostRuntime) -> Result<(), Fail> {
    let memory = [0, 0, 0, 0, 0xff, 0, 0xff, 0xff, 0, 0, 0, 0, 0x80, 0, 0, 0];
    let end = end(rt.alloc(), Ending::Stop(Stop::Break), &memory)?;
    let text = report_text(rt.alloc(), &end)?;
    assert_eq!(rt;
        text.as_str(),
        "stop break\n\
        count 4294967296\n\
        pc 0x00400008\n\
        r2 0x0000000a\n\
        r31 0xfedcba98\n\
        lo 0xffffffe8\n\
        hi 0xffffffff\n\
        m 0x00000004 0xffff00ff\n\
        m 0x0000000c 0x00000080\n"
    );
    Ok(())
}

#[test]
fn the_first_line_says_how_the_run_ended(rt: HostRuntime) -> Result<(), Fail> {
    let cases = [
        (Ending::Stop(Stop::Break), "stop break\ncount "),
        (Ending::Stop(Stop::Overflow), "stop overflow\ncount "),
        (Ending::Stop(Stop::Unaligned), "stop unaligned\ncount "),
        (Ending::Stop(Stop::OutOfRange), "stop range\ncount "),
        (Ending::Stop(Stop::BadPc), "stop badpc\ncount "),
        (Ending::Limit, "limit\ncount "),
    ];
    for (outcome, first) in cases {
        let end = end(rt.alloc(), outcome, &[])?;
        let text = report_text(rt.alloc(), &end)?;
        assert!(rt; text.as_str().starts_with(first));
    }
    Ok(())
}

#[test]
fn a_fault_is_named_with_its_line(rt: HostRuntime) -> Result<(), Fail> {
    let kind = FaultKind::BadOperands;
    let text = fault_text(rt.alloc(), &TextFault { line: 3, kind })?;
    assert_eq!(rt; text.as_str(), "fault line 3 BadOperands\n");
    Ok(())
}
