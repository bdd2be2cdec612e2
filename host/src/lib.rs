//! A second reading of the paper that fixes the rules, written independently of the proved checker, and the tools
//! that hold the two against each other: `cases` makes calls with the results expected of them, `compare` looks at
//! what the proved side answered, `coverage` counts what a file of cases reaches. `amounts` makes texts for cells that
//! hold amounts, with what is to be read in them, and `conversions` registers to be converted, with what comes of it.
//! `days` makes days of lines that are judged and noted in the day's summary, and looks at what the proved side made of
//! them.
//! `program` is the paper's program, `report` makes inputs for it, and `drip` hands them over in short pieces.
//!
//! For benchmarks there are two functions, `BenchDay::in_version_2` for the same day over a register of version 2, and
//! `BenchDay::lines_of` for its lines with more executing entities:
//!
//! - `bench_day(seed: u64, count: usize) -> BenchDay` makes `count` lines with the lists (64 rows each), the register
//!   (empty, with room for 1,024 rows, of which fewer are used in the end) and the moment to judge them by. Judged in
//!   order, half of them are clean; the others have one finding or a few.
//! - `sized_bench_day(seed: u64, count: usize, list_rows: usize, register_rows: usize) -> BenchDay` makes the same
//!   lines over longer lists and a register with that many rows used before the first line.

pub mod amounts;
pub mod codes;
pub mod compare;
pub mod conversions;
pub mod coverage;
pub mod days;
pub mod file;
pub mod program;
pub mod recipe;
pub mod reference;
pub mod report;

pub use recipe::{bench_day, sized_bench_day, BenchDay};
