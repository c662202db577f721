//! Runs of the models of one's own, on the listings of `examples/`.
use crate::examples::EXAMPLES;
use inorder::{Ended, Machine};
use instructions::{End, Ending, Program};
use isa::parse;
use std::alloc::Global;
use std::process::Abort;
use std::test::Fail;

const LIMIT: u64 = 20_000;

// A model ends as the in-order machine.
fn ends_in_order(
    rt: &impl Abort,
    alloc: Global,
    program: &Program,
    end: &End,
    name: &str,
) -> Result<(), Fail> {
    let mut machine = Machine::new(alloc, program)?;
    let outcome = match machine.run(LIMIT) {
        Ended::Stopped(code) => Ending::Stop(code),
        Ended::Limit => Ending::Limit,
    };
    assert_eq!(rt; end.outcome, outcome, "{name}");
    assert_eq!(rt; end.n, machine.count(), "{name}");
    assert_eq!(rt; end.pc, machine.pc(), "{name}");
    assert_eq!(rt; end.registers, *machine.registers(), "{name}");
    assert_eq!(rt; end.memory.as_slice(), machine.memory(), "{name}");
    Ok(())
}

#[test]
fn models_end_in_order_on_the_examples(rt: HostRuntime) -> Result<(), Fail> {
    for &(name, listing) in EXAMPLES {
        let program = parse(rt.alloc(), listing)?;
        let end = in_order_issue::run(rt.alloc(), &program, LIMIT)?;
        ends_in_order(&rt, rt.alloc(), &program, &end, name)?;
        let end = lookahead::run(rt.alloc(), &program, LIMIT)?;
        ends_in_order(&rt, rt.alloc(), &program, &end, name)?;
        let end = load_ahead::run(rt.alloc(), &program, LIMIT)?;
        ends_in_order(&rt, rt.alloc(), &program, &end, name)?;
    }
    Ok(())
}
