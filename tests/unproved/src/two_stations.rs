//! What the units with two stations do ahead, which a proof does not see.
use isa::parse;
use load_ahead::LoadAhead;
use lookahead::Lookahead;
use std::test::Fail;

/// Listings, whether the second instruction is executed before the first, and how many retire in the turn.
const PAIRS: &[(&[u8], bool, u64)] = &[
    // it reads what the first writes, or not
    (b"addiu $1,$0,1\naddiu $2,$1,1\n", false, 1),
    (b"addiu $1,$0,1\naddu $2,$3,$1\n", false, 1),
    (b"addiu $1,$0,1\naddiu $2,$3,1\n", true, 2),
    // nothing writes register 0
    (b"addiu $0,$1,1\naddiu $2,$0,1\n", true, 2),
    (b".space 4\nsw $1,0($0)\naddiu $2,$0,1\n", true, 2),
    // a branch is passed, and goes on as predicted, or not
    (b"bne $0,$0,L\naddiu $1,$0,1\nL: break\n", true, 2),
    (b"beq $0,$0,L\naddiu $1,$0,1\nL: break\n", true, 1),
    // a load or a jump makes no value of its own
    (b".space 4\naddiu $1,$0,1\nlw $2,0($0)\n", false, 1),
    (b"addiu $1,$0,1\njr $2\n", false, 1),
    // both halves of a product
    (b"mult $1,$2\naddiu $3,$0,1\n", true, 1),
];

#[test]
fn second_is_executed_before_the_first(rt: HostRuntime) -> Result<(), Fail> {
    for &(listing, early, count) in PAIRS {
        let program = parse(rt.alloc(), listing)?;
        let mut unit = Lookahead::new(rt.alloc(), &program)?;
        unit.look_ahead(2);
        assert_eq!(rt; unit.early.is_some(), early, "{listing:?}");
        assert!(rt; unit.step().is_ok(), "{listing:?}");
        assert_eq!(rt; unit.state.committed.count(), count, "{listing:?}");
    }
    Ok(())
}

/// Listings, what a load reads ahead of the first instruction, and how many retire in the turn.
const LOADS: &[(&[u8], Option<u32>, u64)] = &[
    // a store to another place, and one to the load's place
    (b".space 8\nsw $sp,4($0)\nlw $2,0($0)\n", Some(0), 2),
    (b".word 7,0\nsb $1,0($0)\nlw $2,0($0)\n", Some(7), 1),
    // a store of what is there
    (b".word 7,0\nsb $1,4($0)\nlw $2,4($0)\n", Some(0), 2),
    // its base waits for the first
    (b".space 8\naddiu $1,$0,4\nlw $2,0($1)\n", None, 1),
    // no address, or none inside the memory
    (b".space 8\nsw $1,4($0)\nlw $2,2($0)\n", None, 1),
    (b".space 8\nsw $1,4($0)\nlw $2,8($0)\n", None, 1),
];

#[test]
fn load_reads_ahead_of_a_store_and_is_checked(rt: HostRuntime) -> Result<(), Fail> {
    for &(listing, guess, count) in LOADS {
        let program = parse(rt.alloc(), listing)?;
        let mut unit = LoadAhead::new(rt.alloc(), &program)?;
        unit.look_ahead(2);
        assert_eq!(rt; unit.ahead.map(|load| load.guess), guess, "{listing:?}");
        assert!(rt; unit.step().is_ok(), "{listing:?}");
        assert_eq!(rt; unit.state.committed.count(), count, "{listing:?}");
    }
    Ok(())
}
