//! Runs of the unit that issues in order.
use in_order_issue::run;
use inorder::{Ended, Machine};
use instructions::{Ending, Program};
use isa::parse;
use std::alloc::Global;
use std::process::Abort;
use std::test::Fail;

// Calls, products, and loads behind stores; it ends out of range.
const CALLS: &[u8] = b".space 8\n\
    addiu $1,$0,3\n\
    L: jal F\n\
    addiu $1,$1,-1\n\
    bne $1,$0,L\n\
    lb $7,1($0)\n\
    sw $7,8($0)\n\
    F: mult $1,$1\n\
    mflo $2\n\
    sh $2,4($0)\n\
    lhu $3,4($0)\n\
    addu $4,$4,$3\n\
    sw $4,0($0)\n\
    jr $ra\n";

// Ends as the in-order machine.
fn ends_in_order(
    rt: &impl Abort,
    alloc: Global,
    program: &Program,
    limit: u64,
) -> Result<(), Fail> {
    let end = run(alloc, program, limit)?;
    let mut machine = Machine::new(alloc, program)?;
    let outcome = match machine.run(limit) {
        Ended::Stopped(code) => Ending::Stop(code),
        Ended::Limit => Ending::Limit,
    };
    assert_eq!(rt; end.outcome, outcome, "{limit:?}");
    assert_eq!(rt; end.n, machine.count(), "{limit:?}");
    assert_eq!(rt; end.pc, machine.pc(), "{limit:?}");
    assert_eq!(rt; end.registers, *machine.registers(), "{limit:?}");
    assert_eq!(rt; end.memory.as_slice(), machine.memory(), "{limit:?}");
    Ok(())
}

#[test]
fn one_station_ends_in_order(rt: HostRuntime) -> Result<(), Fail> {
    let program = parse(rt.alloc(), CALLS)?;
    for limit in [0, 1, 4, 8, 20, 1_000] {
        ends_in_order(&rt, rt.alloc(), &program, limit)?;
    }
    let program = parse(rt.alloc(), b"jr $0\n")?;
    ends_in_order(&rt, rt.alloc(), &program, 1_000)?;
    Ok(())
}
