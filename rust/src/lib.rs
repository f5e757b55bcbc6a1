//! Bellpulsar from Rust: the subcarrier map of IEEE 802.16e OFDMA, proved. A safe wrapper over each call of version 5 of
//! the C interface, `include/bellpulsar.h`.
//!
//! ```
//! use bellpulsar::{locate, place, Address, Content, Mode, Place, Refusal, Setup};
//!
//! // Optional FUSC at FFT size 1024 under cell 17: where is point 0 of subchannel 0 in slot 0, and what is found there?
//! let setup = Setup { mode: Mode::Ofusc, size: 1024, cell: 17 };
//! let address = Address { slot: 0, subchannel: 0, index: 0 };
//! let at = place(setup, address)?;
//! assert_eq!(at, Place { symbol: 0, carrier: -425 });
//! assert_eq!(locate(setup, at)?, Content::Data(address));
//!
//! // What is out of range is refused.
//! let refusal = place(Setup { cell: 256, ..setup }, address).unwrap_err();
//! assert_eq!(refusal, Refusal::Cell);
//! assert_eq!(refusal.to_string(), "refused 3: Is the cell in range?");
//! # Ok::<(), Refusal>(())
//! ```
//!
//! A program names the crate in its `Cargo.toml`. Its edition may be 2021, with rustc 1.82 or later, or 2024, with 1.85:
//!
//! ```toml
//! [dependencies]
//! bellpulsar = { path = "../bellpulsar/rust" }
//! ```
//!
//! The static library, `libbellpulsar.a`, is taken from the folder that `BELLPULSAR_LIB_DIR` names, an absolute path. Else it
//! is taken from the crate's own folder `lib`, where a release has it. Else, in a clone of the repository, its `build.sh`
//! makes it; that takes some minutes the first time, and Cargo does not show how far it is, so run it by hand before. Else
//! pkg-config is asked for `bellpulsar`.
//!
//! # Requests
//!
//! Any number may stand in any field, and a slice may have any length: what is out of range is refused by the engine
//! itself, with the first question that is answered no, a [`Refusal`]. On a refusal no lent slice is written. Lengths,
//! ranges and the order of the questions stand in the header.
//!
//! In FUSC the pilots are a list of the caller's. It goes with the setup, [`Setup::with_pilots`], in the calls that take a
//! [`Piloted`]; in every other mode these are given the [`Setup`] alone.
//!
//! The mode alone has a type of its own, [`Mode`]. One that comes as a number or by name is made a `Mode` first, and where
//! it is not listed that is refused, with [`Refusal::Mode`]: the first question of every call that takes a `Mode`, so no
//! other could come before it. In a [`Zone`] the mode stays a number, and the engine is asked: of a plan and of bursts not
//! every mode is accepted, and in a plan questions to an earlier zone come first.

mod bursts;
#[rustfmt::skip] // As the header has them.
mod c;
mod collisions;
mod grid;
mod map;
mod mode;
mod plan;
mod refusal;

pub use bursts::{burst_owner, burst_owners, bursts_check, Burst, Owner};
pub use collisions::{amc_collisions, ofusc_collisions, Collisions};
pub use grid::{empty, empty_first, grid_len, ground, lay, lit_points_len, look, points_len};
pub use grid::{Point, Seen, ALL_GROUPS};
pub use map::{locate, place, places, Address, Content, Piloted, Place, Setup};
pub use mode::Mode;
pub use plan::{plan_read, plan_write, Plan, Zone};
pub use refusal::Refusal;

/// The version of the library that is linked, 50000 for 5.0.0.
pub fn version() -> u32 {
    // Safety: no pointer is given.
    unsafe { c::bp_version() }
}
