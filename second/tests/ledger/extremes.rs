//! Arguments at the ends of 64 bits, where sums and products would wrap.

use second::number::{self, *};

use crate::bench::{page, Bench, GUEST};

const EXTREMES: [u64; 16] = [
    0,
    1,
    0x1000,
    0x8000_0000,
    0xFFFF_F000,
    1 << 32,
    1 << 52,
    (1 << 52) + 1,
    1 << 55,
    (1 << 55) + 1,
    1 << 63,
    i64::MAX as u64,
    u64::MAX - 0x1F_FFFF,
    u64::MAX - 0xFFF,
    u64::MAX - 1,
    u64::MAX,
];

#[test]
fn products_that_would_wrap() {
    // 2^55 units of 2 MiB are 2^64 pages; 2^52 pages are 2^64 bytes.
    let mut bench = Bench::runnable();
    bench.refuse(ZERO, 0, &[0, 0x8000_0000, 1, 1 << 55, 0], 4);
    bench.refuse(ZERO, 0, &[0, 0x8000_0000, 1, (1 << 55) + 1, 0], 4);
    bench.refuse(ZERO, 0, &[0, page(7), 0, 1 << 52, GUEST], 4);
    bench.refuse(ZERO, 0, &[0, page(7), 0, (1 << 52) + 1, GUEST], 4);
    bench.refuse(POOL, 0, &[0, page(7), (1 << 52) + 1], 4);
    bench.accept(POOL, 0, &[0, page(7), 1]);
}

#[test]
fn sums_that_would_wrap() {
    let last = u64::MAX - 0xFFF;
    let mut bench = Bench::open(1, 16);
    bench.refuse(CONVERT, 0, &[last, 1], 5);
    bench.refuse(CONVERT, 0, &[last, 2], 5);
    // The end would wrap round to memory's end.
    bench.refuse(CONVERT, 0, &[u64::MAX - 0xFF_FFFF, 4_096], 5);
    let mut bench = Bench::initializing();
    bench.refuse(REGION, 0, &[0, last, 0x2000], 5);
    bench.refuse(REGION, 0, &[0, 0x1000, last], 5);
    bench.refuse(REGION, 0, &[0, 0x2000, last], 5);
    let mut bench = Bench::mapped();
    bench.refuse(INVALIDATE, 0, &[0, last, 0x1000], 5);
    bench.refuse(INVALIDATE, 0, &[0, last, 0x100_0000], 5);
    // The low 32 bits of an address are not the address.
    bench.refuse(INVALIDATE, 0, &[0, 1 << 32 | GUEST, 0x1000], 5);
    bench.accept(INVALIDATE, 0, &[0, GUEST, 0x1000]);
}

#[test]
fn every_call_with_every_extreme() {
    let benches = [
        Bench::closed(16),
        Bench::closed(0),
        Bench::initializing(),
        Bench::blocked(),
    ];
    for mut bench in benches {
        for call in number::ALL {
            for first in EXTREMES {
                for second in EXTREMES {
                    for third in EXTREMES {
                        let named = [first, second, third, third, second, first];
                        let before = bench.clone();
                        let answer = bench.call(call, first, &named);
                        if !answer.is_accepted() {
                            assert!(bench == before);
                        }
                        let with_tvm = [0, first, second, third, third, first];
                        let before = bench.clone();
                        let answer = bench.call(call, 0, &with_tvm);
                        if !answer.is_accepted() {
                            assert!(bench == before);
                        }
                    }
                }
            }
        }
    }
}
