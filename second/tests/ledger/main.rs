//! Tests of the ledger, its tape and its program, by concern.

mod bench;
mod effects;
mod example;
mod extremes;
mod foreign;
mod lengths;
mod order;
mod process;
mod refusals_01_to_03;
mod refusals_04;
mod refusals_05;
mod refusals_06_to_09;
mod refusals_10_to_15;
mod seatings;
mod tape;
mod untouched;
mod view;
