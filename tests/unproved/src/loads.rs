//! Rows of the queue and of its rule for loads.
use lsq::Answer::{Blocked, Forward, Memory};
use lsq::Width::{Byte, Half, Word};
use lsq::{Answer, Entry, Full, Queue, Width, loads_read_the_last_stores};
use std::process::Abort;
use std::test::Fail;

const DATA: u32 = 0xa1b2_c3d4;

fn store(address: Option<u32>, width: Width, content: Option<u32>) -> Entry {
    Entry {
        store: true,
        width,
        address,
        content,
    }
}

fn load(address: u32, width: Width) -> Entry {
    Entry {
        store: false,
        width,
        address: Some(address),
        content: None,
    }
}

// What the queue answers to the entry at a place, which has to be a load with its address.
fn answered(rt: &impl Abort, queue: &Queue, at: usize) -> Answer {
    let Some(entry) = queue.get(at) else {
        panic!(rt; "no entry at {at}");
    };
    assert!(rt; !entry.store, "a store at {at}");
    assert!(rt; entry.address.is_some(), "no address at {at}");
    queue.answer(at)
}

#[test]
fn word_forwards_and_byte_without_data_blocks(rt: HostRuntime) -> Result<(), Fail> {
    for (base, want) in [(Some(1), Forward(0xa1b2)), (None, Blocked(1))] {
        let mut queue = Queue::new(4);
        queue.push(store(Some(0), Word, Some(DATA)))?;
        queue.push(store(base, Byte, None))?;
        queue.push(load(2, Half))?;
        queue.push(load(1, Byte))?;
        assert_eq!(rt; answered(&rt, &queue, 2), want);
        assert_eq!(rt; answered(&rt, &queue, 3), Blocked(1));
    }
    Ok(())
}

/// A store, by its base and width, a load behind it, by its address and width, and what the load is answered.
const COVERED: &[(u32, Width, u32, Width, Answer)] = &[
    // a word store at 4
    (4, Word, 3, Byte, Memory),
    (4, Word, 4, Byte, Forward(0xd4)),
    (4, Word, 5, Byte, Forward(0xc3)),
    (4, Word, 6, Byte, Forward(0xb2)),
    (4, Word, 7, Byte, Forward(0xa1)),
    (4, Word, 8, Byte, Memory),
    (4, Word, 2, Half, Memory),
    (4, Word, 3, Half, Blocked(0)),
    (4, Word, 4, Half, Forward(0xc3d4)),
    (4, Word, 5, Half, Forward(0xb2c3)),
    (4, Word, 6, Half, Forward(0xa1b2)),
    (4, Word, 7, Half, Blocked(0)),
    (4, Word, 0, Word, Memory),
    (4, Word, 1, Word, Blocked(0)),
    (4, Word, 4, Word, Forward(DATA)),
    (4, Word, 7, Word, Blocked(0)),
    (4, Word, 8, Word, Memory),
    // a halfword store at 4
    (4, Half, 4, Byte, Forward(0xd4)),
    (4, Half, 5, Byte, Forward(0xc3)),
    (4, Half, 6, Byte, Memory),
    (4, Half, 3, Half, Blocked(0)),
    (4, Half, 4, Half, Forward(0xc3d4)),
    (4, Half, 5, Half, Blocked(0)),
    (4, Half, 2, Word, Blocked(0)),
    (4, Half, 4, Word, Blocked(0)),
    // a byte store at 5
    (5, Byte, 4, Byte, Memory),
    (5, Byte, 5, Byte, Forward(0xd4)),
    (5, Byte, 4, Half, Blocked(0)),
    (5, Byte, 5, Half, Blocked(0)),
    (5, Byte, 6, Half, Memory),
    (5, Byte, 1, Word, Memory),
    (5, Byte, 4, Word, Blocked(0)),
    // at the top of memory, where no sum wraps
    (0xffff_fffc, Word, 0, Word, Memory),
    (0xffff_fffc, Word, 0xffff_ffff, Byte, Forward(0xa1)),
    (0xffff_fffe, Word, 0, Byte, Memory),
    (0xffff_fffe, Word, 0xffff_ffff, Half, Forward(0xb2c3)),
    (0xffff_fffe, Word, 0xffff_fffd, Word, Blocked(0)),
    (0, Byte, 0xffff_fffe, Word, Memory),
];

// What a load is answered behind one store, which has its data.
fn answered_behind(
    rt: &impl Abort,
    (base, stored): (u32, Width),
    (address, width): (u32, Width),
) -> Result<Answer, Full> {
    let mut queue = Queue::new(2);
    queue.push(store(Some(base), stored, Some(DATA)))?;
    queue.push(load(address, width))?;
    Ok(answered(rt, &queue, 1))
}

#[test]
fn one_store_answers_by_what_it_covers(rt: HostRuntime) -> Result<(), Fail> {
    for &(base, stored, address, width, want) in COVERED {
        let answer = answered_behind(&rt, (base, stored), (address, width))?;
        assert_eq!(rt; answer, want, "{:?}", (stored, base, width, address));
    }
    Ok(())
}

#[test]
fn youngest_overlapping_store_alone_decides(rt: HostRuntime) -> Result<(), Fail> {
    loads_read_the_last_stores();
    let mut queue = Queue::new(6);
    queue.push(store(Some(0), Word, Some(DATA)))?;
    queue.push(store(Some(0), Byte, Some(0x17)))?;
    queue.push(load(0, Byte))?;
    queue.push(load(0, Word))?;
    queue.push(store(Some(0), Word, Some(0)))?;
    queue.push(load(4, Word))?;
    assert_eq!(rt; answered(&rt, &queue, 2), Forward(0x17));
    assert_eq!(rt;
        answered(&rt, &queue, 3),
        Blocked(1),
        "no bytes of two stores are joined"
    );
    assert_eq!(rt; answered(&rt, &queue, 5), Memory);
    Ok(())
}

#[test]
fn entries_come_learn_and_leave(rt: HostRuntime) -> Result<(), Fail> {
    let mut queue = Queue::new(2);
    let empty = queue.shift();
    assert_eq!(rt; empty, None);
    queue.push(store(None, Word, None))?;
    queue.push(load(8, Word))?;
    let refused = queue.push(load(0, Byte));
    assert_eq!(rt; refused, Err(Full));
    assert_eq!(rt; queue.len(), 2);
    assert_eq!(rt; answered(&rt, &queue, 1), Blocked(0));
    queue.know(0, 8);
    assert_eq!(rt; answered(&rt, &queue, 1), Blocked(0));
    queue.give(0, 7);
    assert_eq!(rt; answered(&rt, &queue, 1), Forward(7));
    let oldest = queue.shift();
    assert_eq!(rt; oldest, Some(store(Some(8), Word, Some(7))));
    assert_eq!(rt; answered(&rt, &queue, 0), Memory);
    queue.cut(0);
    assert_eq!(rt; queue.get(0), None);
    Ok(())
}
