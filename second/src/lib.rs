//! A page ledger for confidential machines, written from document 01 alone.
//!
//! [`Ledger::call`] is the whole engine: it is lent the page table, decides a
//! call and answers. Around it stand the page records ([`page`]), the fences
//! ([`fence`]), the refusal numbers ([`refusal`]), the tape ([`tape`]) and the
//! printer ([`program`]).
//!
//! Comments of the form `// 6` beside a check give the refusal number that the
//! check answers with. Document 01 gives the lowest number that holds, so in
//! every function these numbers only ever rise.

#![forbid(unsafe_code)]

pub mod answer;
pub mod calls;
pub mod fence;
pub mod ids;
pub mod ledger;
pub mod page;
pub mod program;
pub mod range;
mod records;
pub mod refusal;
pub mod slot;
pub mod tape;

pub use answer::Answer;
pub use calls::number;
pub use ids::{HartId, SlotId, VcpuId};
pub use ledger::{Ledger, Seat};
pub use page::Page;
pub use range::GuestRange;
pub use refusal::Refusal;
pub use slot::Phase;
