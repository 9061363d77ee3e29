//! The tape reader by itself.

use second::tape::{entry, Bad, Tape, ENTRY};

#[test]
fn a_good_record_is_lent_from_the_tape() {
    let bytes = entry(17, 3, [1, 2, u64::MAX, 0x0102_0304_0506_0708, 0, 6]);
    assert_eq!(bytes[..4], [0x43, 0x56, 17, 3]);
    assert_eq!(bytes[4..12], [1, 0, 0, 0, 0, 0, 0, 0]);
    assert_eq!(bytes[28..36], [8, 7, 6, 5, 4, 3, 2, 1]);

    let mut tape = Tape::new(&bytes);
    let read = tape.next().unwrap().unwrap();
    assert_eq!((read.call, read.hart), (17, 3));
    assert_eq!(read.args(), [1, 2, u64::MAX, 0x0102_0304_0506_0708, 0, 6]);
    assert_eq!(read.arguments.as_ptr_range(), bytes[4..].as_ptr_range());
    assert_eq!(tape.place(), ENTRY);
    assert_eq!(tape.next(), None);
}

#[test]
fn the_reader_remembers_its_place() {
    let bytes = [entry(1, 0, [7; 6]), entry(2, 1, [8; 6])].concat();
    let calls: Vec<_> = Tape::new(&bytes).map(|read| read.unwrap().call).collect();
    assert_eq!(calls, [1, 2]);
}

#[test]
fn short_is_tested_before_mark() {
    let good = entry(1, 0, [0; 6]);
    for length in 1..ENTRY {
        assert_eq!(Tape::new(&good[..length]).next(), Some(Err(Bad::Short)));
        assert_eq!(
            Tape::new(&[0xFF; ENTRY][..length]).next(),
            Some(Err(Bad::Short))
        );
    }
    assert_eq!(Tape::new(&[0xFF; ENTRY]).next(), Some(Err(Bad::Mark)));
    assert_eq!(Tape::new(&[]).next(), None);
}

#[test]
fn each_byte_of_the_mark_counts() {
    for wrong in 0..2 {
        let mut bytes = entry(1, 0, [0; 6]);
        bytes[wrong] ^= 0x80;
        assert_eq!(Tape::new(&bytes).next(), Some(Err(Bad::Mark)));
    }
}

#[test]
fn a_bad_record_ends_the_tape() {
    let mut bytes = [entry(1, 0, [0; 6]), entry(2, 0, [0; 6])].concat();
    bytes[0] = 0;
    let read: Vec<_> = Tape::new(&bytes).collect();
    assert_eq!(read, [Err(Bad::Mark)]);
}
