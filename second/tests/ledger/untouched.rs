//! Long runs of calls, good and bad, over lawful tables and garbage: a refused
//! call changes nothing, and what the ledger says holds together.

use second::number::{self, *};
use second::{HartId, Page};

use crate::bench::{args, page, slot, Bench, Random, GUEST};

/// The address of a page that answers to `wanted`, if there is one.
fn page_that(random: &mut Random, bench: &Bench, wanted: impl Fn(Page) -> bool) -> u64 {
    let pages = bench.ledger.pages() as u64;
    let start = random.below(pages);
    let found = (start..start + pages)
        .map(|index| index % pages)
        .find(|&index| bench.page(index as usize).map_or(false, &wanted));
    page(found.unwrap_or(start))
}

/// The slot and guest address of a mapped page, if there is one.
fn mapped_guest(random: &mut Random, bench: &Bench) -> (u64, u64) {
    let address = page_that(random, bench, |page| {
        matches!(page, Page::Present { .. } | Page::Blocked { .. })
    });
    let index = (address - page(0)) / 0x1000;
    match bench.page(index as usize) {
        Some(Page::Present { slot, mapping } | Page::Blocked { slot, mapping, .. }) => {
            (slot.into(), u64::from(mapping.guest) * 0x1000)
        }
        _ => (0, GUEST),
    }
}

/// Arguments that are often nearly right.
fn likely(random: &mut Random, call: u64, bench: &Bench) -> [u64; 6] {
    let pages = bench.ledger.pages() as u64;
    let free = page_that(random, bench, |page| bench.ledger.is_free(page));
    let ordinary = page_that(random, bench, |page| page == Page::Ordinary);
    let (owner, mapped) = mapped_guest(random, bench);
    let tvm = random.below(3);
    let guest = GUEST + 0x1000 * random.below(18);
    let few = 1 + random.below(8) / 6;
    let mut args = match call {
        CONVERT => args(&[ordinary, 1 + random.below(8)]),
        RECLAIM => args(&[free, few]),
        CREATE => args(&[page(4 * random.below(pages / 4)), free]),
        FINALIZE | DESTROY | TVM_FENCE => args(&[tvm]),
        REGION => args(&[tvm, GUEST + 0x8000 * random.below(4), 0x8000]),
        POOL => args(&[tvm, free, few]),
        MEASURED => args(&[tvm, ordinary, free, 0, few, guest]),
        ZERO => args(&[tvm, free, 0, few, guest]),
        VCPU => args(&[tvm, random.below(4), free]),
        ENTER => args(&[tvm, random.below(4)]),
        INVALIDATE | VALIDATE | REMOVE => args(&[owner, mapped, 0x1000 * few]),
        OPEN => args(&[2, pages]),
        _ => args(&[]),
    };
    if random.below(20) == 0 {
        args[random.below(6) as usize] ^= 1 << random.below(64);
    }
    args
}

/// Mostly a call that moves a run on, now and then any number at all.
fn some_call(random: &mut Random) -> u64 {
    match random.below(100) {
        0 => DESTROY,
        1 => random.next(),
        2..=14 => random.one_of(&[CONVERT, GLOBAL_FENCE, LOCAL_FENCE, LOCAL_FENCE]),
        15..=49 => random.one_of(&[ZERO, INVALIDATE, TVM_FENCE, VALIDATE, REMOVE, LEAVE]),
        _ => match random.one_of(&number::ALL) {
            DESTROY => ENTER,
            call => call,
        },
    }
}

#[test]
fn refused_calls_change_nothing() {
    let mut random = Random(1);
    let mut refused = [0u32; 16];
    let mut accepted = [0u32; 34];
    for run in 0..200 {
        let pages = 64;
        let mut bench = Bench::open(3, pages);
        bench.free(0, 56);
        if run % 4 != 0 {
            bench.tvm(0);
            bench.tvm(8);
        }
        for _ in 0..500 {
            let call = some_call(&mut random);
            let args = likely(&mut random, call, &bench);
            let hart = random.below(3) + random.below(60) / 59;
            let before = bench.clone();
            let answer = bench.ledger.call(&mut bench.table, call, hart, args);
            if answer.is_accepted() {
                assert_eq!(answer.error(), 0);
                accepted[call as usize] += 1;
            } else {
                assert!(bench == before, "call {call} {args:x?}: {answer:?}");
                refused[answer.value() as usize] += 1;
            }
            awaited_harts_are_inside(&bench);
            if run % 3 == 2 && random.below(30) == 0 {
                let index = random.below(pages) as usize;
                let mut record = random.next().to_le_bytes();
                record[0] = random.below(10) as u8;
                record[1] = random.below(3) as u8;
                record[5] = 1;
                bench.set_record(index, record);
            }
        }
    }
    // All calls but open were accepted somewhere, and all but the numbers that
    // need a special set-up were given.
    for call in number::ALL {
        assert!(call == OPEN || accepted[call as usize] > 10, "{accepted:?}");
    }
    for number in [1, 2, 3, 4, 5, 6, 7, 8, 10, 11, 12, 15] {
        assert!(refused[number] > 20, "{refused:?}");
    }
}

/// A hart awaited by a TVM's fence is inside that TVM.
fn awaited_harts_are_inside(bench: &Bench) {
    for number in 0..16 {
        let slot = slot(number);
        let awaited = bench.ledger.tvm_fence_state(slot).awaited();
        for hart in HartId::all().filter(|&hart| awaited.contains(hart)) {
            assert_eq!(bench.ledger.seat(hart).map(|seat| seat.slot), Some(slot));
        }
    }
}

#[test]
fn garbage_tables_of_any_length() {
    let mut random = Random(2);
    for _ in 0..20_000 {
        let mut bench = Bench::blocked();
        let call = some_call(&mut random);
        let args = likely(&mut random, call, &bench);
        let length = random.one_of(&[128, 128, 128, 0, 1, 127, 129, 136, 1_000]);
        bench.table = (0..length).map(|_| random.next() as u8).collect();
        if random.below(2) == 0 {
            // Kinds that exist, so that calls get further.
            for kind in bench.table.iter_mut().step_by(8) {
                *kind %= 9;
            }
        }
        let before = bench.clone();
        let answer = bench.ledger.call(&mut bench.table, call, 0, args);
        if !answer.is_accepted() {
            assert!(bench == before);
        } else {
            assert_eq!(length, 128);
        }
    }
}

#[test]
fn the_same_calls_give_the_same_answers() {
    let run = || {
        let mut random = Random(3);
        let mut bench = Bench::open(2, 32);
        bench.free(0, 32);
        let answers: Vec<_> = (0..2_000)
            .map(|_| {
                let call = some_call(&mut random);
                let args = likely(&mut random, call, &bench);
                let hart = random.below(2);
                bench.ledger.call(&mut bench.table, call, hart, args)
            })
            .collect();
        (answers, bench)
    };
    assert!(run() == run());
}
