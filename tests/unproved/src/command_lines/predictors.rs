//! The predictor of each name.
use command_line::{BranchPredictor, choose};
use instructions::{Instr, Op, Predictor, Reg};

/// A branch at this pc, and where it goes if it is taken.
const PC: u32 = 0x0040_0010;

const TARGET: u32 = 0x0040_0000;

// nottaken and taken learn nothing; a counter of bimod is weakly not taken, and once taken is enough.
#[test]
fn each_answers_as_its_name_says(rt: HostRuntime) {
    let behind = PC + 4;
    let cases: [(BranchPredictor, u32, u32); 3] = [
        (BranchPredictor::NotTaken, behind, behind),
        (BranchPredictor::Taken, TARGET, TARGET),
        (BranchPredictor::Bimod, behind, TARGET),
    ];
    for (which, before, learnt) in cases {
        let branch = Instr::new(Op::Bne, Reg::ZERO, Reg::ZERO, Reg::ZERO, TARGET);
        let mut predictor = choose(which);
        assert_eq!(rt; predictor.predict(PC, &branch), before);
        predictor.told(PC, TARGET);
        assert_eq!(rt; predictor.predict(PC, &branch), learnt);
    }
}
