//! An instruction as text that no listing has.
use instructions::{Instr, Op, Reg};
use isa::{InstrText, RegisterStyle};
use std::test::Fail;

#[test]
fn registers_that_a_listing_cannot_name_have_their_numbers(rt: HostRuntime) -> Result<(), Fail> {
    let instr = Instr::new(Op::Addu, Reg::LO, Reg::HI, Reg::ZERO, 0);
    let naming = RegisterStyle::Names;
    let text = InstrText { naming, instr };
    let text = format!(in rt.alloc(); "{text}")?;
    assert_eq!(rt; text.as_str(), "addu $32,$33,$zero");
    Ok(())
}
