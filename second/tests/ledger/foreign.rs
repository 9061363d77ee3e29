//! Tables that no lawful calls have made: every answer is still fixed.

use second::number::*;
use second::page::claim;
use second::{Page, SlotId};

use crate::bench::{page, slot, Bench, Random, GUEST};

/// A kind 7 or 8 record of slot 0.
fn mapped(kind: u8, version: u16, word: u32) -> [u8; 8] {
    let [v0, v1] = version.to_le_bytes();
    let [g0, g1, g2, g3] = word.to_le_bytes();
    [kind, 0, v0, v1, g0, g1, g2, g3]
}

#[test]
fn of_several_claimants_the_lowest_is_meant() {
    let mut bench = Bench::runnable();
    bench.set_record(9, mapped(7, 0, 0x100));
    bench.set_record(11, mapped(8, 0, 0x100));
    bench.set_record(14, mapped(7, 0, 0x100));
    let named = [0, GUEST, 0x1000];
    // Page 9 is present: blocked and fenced, it is removed, and 11 is meant.
    bench.refuse(REMOVE, 0, &named, 6);
    bench.accept(INVALIDATE, 0, &named);
    assert_eq!(bench.record(9)[0], 8);
    assert_eq!(bench.record(14), mapped(7, 0, 0x100));
    bench.refuse(INVALIDATE, 0, &named, 6);
    bench.accept(TVM_FENCE, 0, &[0]);
    bench.accept(REMOVE, 0, &named);
    assert_eq!(bench.record(11), mapped(8, 0, 0x100));
    bench.accept(VALIDATE, 0, &named); // 11, whose version 0 is done
    assert_eq!(bench.record(11), mapped(7, 0, 0x100));
    bench.accept(INVALIDATE, 0, &named); // 11 again
    bench.refuse(REMOVE, 0, &named, 7);
    bench.refuse(ZERO, 0, &[0, page(8), 0, 1, GUEST], 11);
}

#[test]
fn a_claimant_that_is_not_meant_does_not_count() {
    let mut bench = Bench::runnable();
    bench.set_record(8, mapped(7, 0, 0x100));
    bench.set_record(9, mapped(7, 0, 0x8000_0100)); // large, but higher
    bench.accept(INVALIDATE, 0, &[0, GUEST, 0x1000]);
    assert_eq!(bench.record(9), mapped(7, 0, 0x8000_0100));

    let mut bench = Bench::runnable();
    bench.set_record(8, mapped(8, 0, 0x100));
    bench.set_record(9, mapped(8, 40_000, 0x100)); // never done, but higher
    bench.accept(TVM_FENCE, 0, &[0]);
    bench.accept(REMOVE, 0, &[0, GUEST, 0x1000]);
}

#[test]
fn bits_20_to_30_are_ignored_when_read_and_0_when_written() {
    let mut bench = Bench::runnable();
    bench.set_record(9, mapped(7, 0x4321, 0x7FF0_0100));
    bench.refuse(ZERO, 0, &[0, page(8), 0, 1, GUEST], 11);
    bench.accept(INVALIDATE, 0, &[0, GUEST, 0x1000]);
    assert_eq!(bench.record(9), mapped(8, 0, 0x100));

    bench.set_record(9, mapped(8, 0, 0x7FF0_0100));
    bench.accept(TVM_FENCE, 0, &[0]);
    bench.accept(VALIDATE, 0, &[0, GUEST, 0x1000]);
    assert_eq!(bench.record(9), mapped(7, 0, 0x100));
}

#[test]
fn a_refused_call_keeps_ignored_bits_too() {
    let mut bench = Bench::runnable();
    bench.set_record(9, mapped(7, 0x4321, 0xFFF0_0100));
    bench.refuse(INVALIDATE, 0, &[0, GUEST, 0x1000], 14);
}

#[test]
fn a_lone_large_record_claims_its_own_page_only() {
    let mut bench = Bench::runnable_of(16);
    bench.set_record(9, mapped(7, 0, 0x8000_0205)); // block 0x200 to 0x3FF
    bench.accept(ZERO, 0, &[0, page(8), 0, 1, 0x20_4000]);
    bench.refuse(ZERO, 0, &[0, page(10), 0, 1, 0x20_5000], 11);
    bench.refuse(INVALIDATE, 0, &[0, 0x20_5000, 0x1000], 14);
    bench.refuse(INVALIDATE, 0, &[0, 0x20_0000, 0x20_0000], 6);
    bench.accept(INVALIDATE, 0, &[0, 0x20_4000, 0x1000]);
}

#[test]
fn foreign_fields_of_free_and_ordinary_pages_are_not_read() {
    let mut bench = Bench::open(1, 16);
    bench.set_record(0, [0, 1, 2, 3, 4, 5, 6, 7]);
    bench.set_record(1, [2, 1, 2, 3, 4, 5, 6, 7]);
    bench.set_record(2, [1, 9, 0, 0, 4, 5, 6, 7]);
    bench.accept(CONVERT, 0, &[page(0), 1]);
    assert_eq!(bench.record(0), [1, 0, 0, 0, 0, 0, 0, 0]);
    bench.accept(RECLAIM, 0, &[page(1), 1]);
    assert_eq!(bench.record(1), [0; 8]);
    bench.refuse(RECLAIM, 0, &[page(2), 1], 7);
    bench.accept(GLOBAL_FENCE, 0, &[]);
    bench.accept(RECLAIM, 0, &[page(2), 1]);
    assert_eq!(bench.record(2), [0; 8]);
}

#[test]
fn versions_yet_to_come_are_not_done() {
    for version in [2u16, 3, 1_000, 65_533, 65_534, 65_535] {
        let mut bench = Bench::open(1, 16);
        let [v0, v1] = version.to_le_bytes();
        bench.accept(GLOBAL_FENCE, 0, &[]);
        bench.accept(GLOBAL_FENCE, 0, &[]);
        bench.set_record(0, [1, 0, v0, v1, 0, 0, 0, 0]);
        bench.refuse(RECLAIM, 0, &[page(0), 1], 7);
        bench.set_record(0, [1, 0, 1, 0, 0, 0, 0, 0]);
        bench.accept(RECLAIM, 0, &[page(0), 1]);
    }
}

#[test]
fn destroy_goes_by_the_slot_byte() {
    let mut bench = Bench::runnable();
    let records = [
        [3, 16, 0, 0, 0, 0, 0, 0],
        [8, 255, 1, 1, 1, 1, 1, 1],
        [9, 0, 1, 1, 1, 1, 1, 1],
        [2, 0, 1, 1, 1, 1, 1, 1],
        [1, 0, 1, 1, 1, 1, 1, 1],
        [0, 0, 1, 1, 1, 1, 1, 1],
    ];
    for (place, record) in records.into_iter().enumerate() {
        bench.set_record(7 + place, record);
    }
    bench.set_record(14, [6, 0, 1, 1, 1, 1, 1, 1]);
    bench.accept(DESTROY, 0, &[0]);
    for (place, record) in records.into_iter().enumerate() {
        assert_eq!(bench.record(7 + place), record);
    }
    assert_eq!(bench.record(14), [2, 0, 0, 0, 0, 0, 0, 0]);
}

/// Calls 17 to 19 straight from the paper's words: for each guest page a
/// search of the table from its start.
fn change_by_the_words(bench: &Bench, call: u64, first: u32, count: u32) -> Result<Bench, u64> {
    let here = slot(0);
    let lowest = |guest: u32| {
        (0..bench.table.len() / 8).find(|&index| claim(&bench.record(index), here) == Some(guest))
    };
    let fence = bench.ledger.tvm_fence_state(here);
    let range = first..first + count;
    let meant: Option<Vec<usize>> = range.clone().map(lowest).collect();
    let meant = meant.ok_or(6u64)?;
    let wanted = if call == INVALIDATE { 7 } else { 8 };
    if meant.iter().any(|&index| bench.record(index)[0] != wanted) {
        return Err(6);
    }
    for &index in &meant {
        if let Some(Page::Blocked { since, .. }) = bench.page(index) {
            if !fence.is_done(since) {
                return Err(7);
            }
        }
    }
    for &index in &meant {
        let word = u32::from_le_bytes(bench.record(index)[4..].try_into().unwrap());
        let block = (word & 0xF_FFFF) & !511;
        let inside = range.contains(&block) && range.contains(&(block + 511));
        if word >> 31 == 1 && !inside {
            return Err(14);
        }
    }
    let mut after = bench.clone();
    for &index in &meant {
        let [_, owner, _, _, g0, g1, g2, g3] = bench.record(index);
        let [v0, v1] = fence.version().0.to_le_bytes();
        let (g2, g3) = (g2 & 0x0F, g3 & 0x80);
        after.set_record(
            index,
            match call {
                INVALIDATE => [8, owner, v0, v1, g0, g1, g2, g3],
                VALIDATE => [7, owner, 0, 0, g0, g1, g2, g3],
                _ => [2, 0, 0, 0, 0, 0, 0, 0],
            },
        );
    }
    Ok(after)
}

#[test]
fn changes_agree_with_the_words_on_garbage() {
    let mut random = Random(17);
    let mut seen = [0; 15];
    for round in 0..3_000 {
        let mut bench = Bench::runnable_of(64);
        for _ in 0..random.below(4) {
            bench.accept(TVM_FENCE, 0, &[0]);
        }
        // Few guest pages and slots, mostly one kind, so that claims collide.
        let usual = random.one_of(&[7, 8]);
        let large = if round % 3 == 0 { 0x8000_0000 } else { 0 };
        for index in 0..64 {
            let kind = random.one_of(&[usual, usual, usual, usual, usual, 7, 8, 2, 9]);
            let word = (random.next() as u32 & 0x7FF0_0000)
                | random.below(12) as u32
                | random.one_of(&[0, 0, 0, large]);
            let mut record = mapped(kind, random.below(3) as u16, word);
            record[1] = random.one_of(&[0, 0, 0, 0, 1, 16]);
            bench.set_record(index, record);
        }
        let first = random.below(12) as u32;
        let count = random.one_of(&[1, 1, 2, 3, 4, 512]);
        let call = random.one_of(&[INVALIDATE, VALIDATE, REMOVE]);
        let named = [0, u64::from(first) * 0x1000, u64::from(count) * 0x1000];
        match change_by_the_words(&bench, call, first, count) {
            Ok(after) => {
                bench.accept(call, 0, &named);
                assert!(bench == after);
                seen[0] += 1;
            }
            Err(number) => {
                bench.refuse(call, 0, &named, number);
                seen[number as usize] += 1;
            }
        }
    }
    for number in [0, 6, 7, 14] {
        assert!(seen[number] > 30, "{seen:?}");
    }
}

#[test]
fn changes_of_large_blocks_agree_with_the_words_on_garbage() {
    let mut random = Random(19);
    let mut seen = [0; 15];
    for _ in 0..60 {
        // Each guest page from 0 to 529 is claimed twice, mostly as large.
        let mut bench = Bench::runnable_of(1_060);
        bench.accept(TVM_FENCE, 0, &[0]);
        let usual = random.one_of(&[7, 8]);
        let turn = random.below(530) as usize;
        for index in 0..1_060 {
            let word = ((index + turn) % 530) as u32 | 0x8000_0000;
            bench.set_record(index, mapped(usual, 0, word));
        }
        for guest in 512..530 {
            let index = (guest + 530 - turn) % 530;
            bench.set_record(index, mapped(usual, 0, guest as u32));
        }
        if random.below(4) == 0 {
            bench.set_record(random.below(1_060) as usize, mapped(usual ^ 15, 0, 3));
        }
        let first = random.one_of(&[0, 0, 0, 1]);
        let count = random.one_of(&[511, 512, 513, 530]) - first;
        let call = random.one_of(&[INVALIDATE, VALIDATE, REMOVE]);
        let named = [0, u64::from(first) * 0x1000, u64::from(count) * 0x1000];
        match change_by_the_words(&bench, call, first, count) {
            Ok(after) => {
                bench.accept(call, 0, &named);
                assert!(bench == after);
                seen[0] += 1;
            }
            Err(number) => {
                bench.refuse(call, 0, &named, number);
                seen[number as usize] += 1;
            }
        }
    }
    for number in [0, 6, 14] {
        assert!(seen[number] > 3, "{seen:?}");
    }
}

#[test]
fn claims_are_by_kind_slot_and_guest_page() {
    let mut random = Random(23);
    for _ in 0..10_000 {
        let record = random.next().to_le_bytes();
        for slot in SlotId::all() {
            let page = match Page::read(&record) {
                Some(Page::Present { slot, mapping } | Page::Blocked { slot, mapping, .. }) => {
                    Some((slot, mapping.guest))
                }
                _ => None,
            };
            let expected = page.filter(|&(owner, _)| owner == slot.byte());
            assert_eq!(claim(&record, slot), expected.map(|(_, guest)| guest));
        }
    }
}
