//! CELT's range coder (RFC 6716), its Laplace values, pulse words, lookups, bit allocation, energies and shapes, the stream record,
//! the lister and the round trip.
//!
//! Every call runs code that the Rattle prover has proved: it takes any bytes and numbers, ends, and either gives what the RFC's definition
//! gives or refuses with a number ([`Refusal`]) and changes nothing. This crate adds no logic: [`Reader`] and [`Writer`] hold a coder's state
//! and its bytes, [`Record`] the energies of a stream and its next frame number, [`round_trip`] reads back what it wrote, and [`raw`] has the
//! exported calls themselves, over slices of any length.
//!
//! ```
//! # fn main() -> Result<(), gurthapen::Refusal> {
//! let mut bytes = [0; 10];
//! let mut writer = gurthapen::Writer::new(&mut bytes)?;
//! writer.uint(70_000, 100_000)?;
//! writer.bits(5, 3)?;
//! writer.close()?;
//! assert!(!writer.error());
//!
//! let mut reader = gurthapen::Reader::new(&bytes)?;
//! assert_eq!(reader.uint(100_000)?, 70_000);
//! assert_eq!(reader.bits(3)?, 5);
//! assert_eq!(reader.bits(26), Err(gurthapen::Refusal::Number));
//! # Ok(())
//! # }
//! ```

mod allocation;
mod energies;
mod exported;
mod listing;
mod lookups;
pub mod raw;
mod reader;
mod record;
mod refusal;
mod state;
mod trip;
mod writer;

pub use allocation::{Allocation, Frame, Wishes, BANDS};
pub use energies::{Coarse, LastBits, Shape, ENERGIES};
pub use listing::list;
pub use lookups::{bits2pulses, get_pulses, pulses2bits};
pub use reader::Reader;
pub use record::Record;
pub use refusal::Refusal;
pub use state::State;
pub use trip::{round_trip, Call, Outcome, Symbol};
pub use writer::Writer;

/// How many places a pulse vector has room for.
pub const ROOM: usize = 176;
