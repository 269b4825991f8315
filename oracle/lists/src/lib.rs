//! Lists of calls: generated from a seed, or recorded in a file. And keys, wire
//! times and tables to look writers up in, generated.

pub mod before_epoch;
pub mod bench;
pub mod comparisons;
pub mod coverage;
pub mod damage;
pub mod figures;
pub mod fill;
pub mod first_owner;
pub mod format;
pub mod generate;
pub mod hostile;
pub mod image;
pub mod keys;
pub mod lookups;
pub mod owners;
pub mod pools;
pub mod record;
pub mod replay;
pub mod rng;
pub mod run;
pub mod sample;
pub mod start;
pub mod times;

pub use comparisons::Comparison;
pub use coverage::Coverage;
pub use figures::Figures;
pub use generate::Generator;
pub use image::{Image, Step};
pub use keys::SerializedKey;
pub use lookups::LookupTable;
pub use owners::FirstOwners;
