//! Requests to callgrind, which outside of it do nothing; and what it wrote.

use std::arch::asm;
use std::collections::HashMap;
use std::ffi::CString;
use std::path::Path;
use std::{fs, io};

/// valgrind/callgrind.h: requests begin at 'C', 'T'.
const BASE: u64 = (b'C' as u64) << 24 | (b'T' as u64) << 16;
const ZERO_STATS: u64 = BASE + 1;
const TOGGLE_COLLECT: u64 = BASE + 2;
const DUMP_STATS_AT: u64 = BASE + 3;

#[inline(always)]
fn request(number: u64, argument: u64) {
    let words: [u64; 6] = [number, argument, 0, 0, 0, 0];
    special(&words);
}

/// valgrind/valgrind.h: turns of a register that add up to 128 bits and leave it as it was, and a move that moves nothing. Valgrind knows the
/// sequence and looks at the words; each machine has its own.
#[cfg(target_arch = "x86_64")]
#[inline(always)]
fn special(words: &[u64; 6]) {
    unsafe {
        asm!(
            "rol rdi, 3",
            "rol rdi, 13",
            "rol rdi, 61",
            "rol rdi, 51",
            "xchg rbx, rbx",
            in("rax") words.as_ptr(),
            inout("rdx") 0u64 => _,
        );
    }
}

#[cfg(target_arch = "aarch64")]
#[inline(always)]
fn special(words: &[u64; 6]) {
    unsafe {
        asm!(
            "ror x12, x12, #3",
            "ror x12, x12, #13",
            "ror x12, x12, #51",
            "ror x12, x12, #61",
            "orr x10, x10, x10",
            in("x4") words.as_ptr(),
            inout("x3") 0u64 => _,
        );
    }
}

/// Forgets what has been counted.
pub fn zero() {
    request(ZERO_STATS, 0);
}

/// Counts from here on, or no longer.
#[inline(always)]
pub fn toggle() {
    request(TOGGLE_COLLECT, 0);
}

/// Writes what has been counted to a file of its own, under a name.
pub fn dump(name: &str) {
    let name = CString::new(name).expect("a name has no zero byte");
    request(DUMP_STATS_AT, name.as_ptr() as u64);
}

/// The instructions of every dump in a folder, by name.
pub fn read(folder: &Path) -> io::Result<HashMap<String, u64>> {
    let mut counts = HashMap::new();
    for file in fs::read_dir(folder)? {
        let text = fs::read_to_string(file?.path())?;
        let after = |mark: &str| {
            text.lines()
                .find_map(|line| line.strip_prefix(mark))
                .map(|rest| rest.trim().to_string())
        };
        let name = after("desc: Trigger: Client Request: ");
        let total = after("summary:").or_else(|| after("totals:"));
        if let (Some(name), Some(Ok(total))) = (name, total.map(|total| total.parse())) {
            counts.insert(name, total);
        }
    }
    Ok(counts)
}
