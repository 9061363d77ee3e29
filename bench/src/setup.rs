//! What workloads begin with, all of it lawful calls, and how their rows are named.

use second::number::*;

use crate::script::{call, Row, Step};

pub const HARTS: u64 = 4;
pub const PAGE: u64 = 4_096;
/// Pages in a large page.
pub const LARGE: usize = 512;
/// Where the guest's region begins, and its pages.
pub const GUEST: u64 = 0x4000_0000;
pub const GUEST_PAGES: u64 = 8_192;
/// Directory, state page and one vCPU.
pub const OWN: usize = 6;

pub fn page(index: usize) -> u64 {
    0x8000_0000 + index as u64 * PAGE
}

pub fn guest(index: usize) -> u64 {
    GUEST + index as u64 * PAGE
}

pub fn open(pages: usize) -> Vec<Step> {
    vec![Step::Fresh(pages), call(OPEN, 0, &[HARTS, pages as u64])]
}

/// A global fence and its end.
pub fn fence() -> Vec<Step> {
    let mut steps = vec![call(GLOBAL_FENCE, 0, &[])];
    steps.extend((1..HARTS).map(|hart| call(LOCAL_FENCE, hart, &[])));
    steps
}

/// An open ledger whose first pages are free.
pub fn freed(pages: usize, free: usize) -> Vec<Step> {
    let mut steps = open(pages);
    steps.push(call(CONVERT, 0, &[page(0), free as u64]));
    steps.extend(fence());
    steps
}

/// TVM 0 with a region and vCPU 0, from the first pages.
pub fn tvm() -> Vec<Step> {
    vec![
        call(CREATE, 0, &[page(0), page(4)]),
        call(REGION, 0, &[0, GUEST, GUEST_PAGES * PAGE]),
        call(VCPU, 0, &[0, 0, page(5)]),
    ]
}

/// All pages free, and TVM 0 runnable on the first ones.
pub fn runnable(pages: usize) -> Vec<Step> {
    let mut steps = freed(pages, pages);
    steps.extend(tvm());
    steps.push(call(FINALIZE, 0, &[0]));
    steps
}

pub fn zero(first: usize, large: bool, count: usize, at: usize) -> Step {
    let kind = u64::from(large);
    call(ZERO, 0, &[0, page(first), kind, count as u64, guest(at)])
}

/// Rows of one group and one size.
pub struct Rows {
    pub group: &'static str,
    pub pages: usize,
}

impl Rows {
    pub fn row(&self, name: impl Into<String>, range: usize) -> Row {
        Row {
            group: self.group,
            name: name.into(),
            pages: self.pages,
            range,
            looks: None,
            grows: true,
        }
    }

    pub fn looks(&self, name: impl Into<String>, range: usize, looks: usize) -> Row {
        Row {
            looks: Some(looks),
            ..self.row(name, range)
        }
    }
}
