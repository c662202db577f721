//! Faults as they are named, and registers that no listing names.
mod written;

use instructions::{Half, Reg};
use isa::{FaultKind, TextFault, parse};
use std::test::Fail;

#[test]
fn faults_have_names(rt: HostRuntime) {
    assert_eq!(rt; FaultKind::NotAscii.code(), 1);
    assert_eq!(rt; FaultKind::Memory.code(), 9);
    assert_eq!(rt; FaultKind::UnknownLabel.name(), "UnknownLabel");
}

#[test]
fn moves_name_lo_and_hi(rt: HostRuntime) -> Result<(), Fail> {
    let text = b"mflo $3\nmfhi $4\nmtlo $5\nmthi $6";
    let program = parse(rt.alloc(), text).map_err(|_| "refused")?;
    assert_eq!(rt; program.len(), 4);
    let general = |number: u8| Reg::general(number);
    let wanted = [
        (Some(Reg::LO), general(3)),
        (Some(Reg::HI), general(4)),
        (general(5), Some(Reg::LO)),
        (general(6), Some(Reg::HI)),
    ];
    for (i, (read, written)) in wanted.iter().enumerate() {
        let moved = program.instr(i);
        assert_eq!(rt; moved.source(1), *read);
        assert_eq!(rt; moved.source(2), None);
        assert_eq!(rt; moved.written(Half::Low), *written);
    }
    Ok(())
}

#[test]
fn a_fault_says_its_line_and_why(rt: HostRuntime) -> Result<(), Fail> {
    let kind = FaultKind::UnknownLabel;
    let fault = TextFault { line: 3, kind };
    let text = format!(in rt.alloc(); "{fault}")?;
    assert_eq!(rt; text.as_str(), "line 3: no line has this label");
    Ok(())
}
