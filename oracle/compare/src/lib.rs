//! The static library beside the reading of 01 and 02 and the Rust: generated
//! lists and keys, and calls with every number of places and every length of
//! pens, through all three; wire times, lookups of writers, and what else is lent
//! a head or pens, through the library and the reading. Every answer and every
//! byte is compared.

pub mod added;
pub mod case;
pub mod counts;
pub mod epoch_tally;
pub mod figures;
pub mod fresh;
pub mod guarded;
pub mod head_read;
pub mod keys;
pub mod library;
pub mod list;
pub mod lookup_tally;
pub mod lookups;
pub mod read;
pub mod reads;
pub mod run;
pub mod shrink;
pub mod tally;
pub mod times;

pub use case::{Case, Fault};
pub use list::List;
pub use run::{Parting, Run};
pub use tally::Tally;
