//! A model of the stop gate, written from its documents alone.
//!
//! It says the same rules a second time, as near to the words of the
//! documents as possible and with no regard to speed, so that another
//! implementation can be compared with it:
//!
//! - `RULES.md` is in [`plate`] and [`run_out`];
//! - `SURROUNDINGS.md` is in [`claims`] and [`surroundings`];
//! - `GATE.md` is in [`gate`];
//! - `FLOOR-FILE.md` is in [`floor`];
//! - `WORLD.md` is in [`world`].
//!
//! The numbers of the refusals are those of `REFUSALS.md`. Lengths are in nm,
//! times in ms, speeds in nm per ms, accelerations in nm per ms per ms.

pub mod claims;
pub mod floor;
pub mod gate;
pub mod plate;
pub mod run_out;
pub mod surroundings;
pub mod world;
