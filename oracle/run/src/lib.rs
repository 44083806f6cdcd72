//! Cases run through the Rust, held against another implementation, and written down to be replayed.

pub mod asset_bench;
pub mod asset_cases;
pub mod asset_tally;
pub mod asset_vectors;
pub mod assets;
pub mod bench;
pub mod clock;
pub mod compare;
pub mod expected;
pub mod links;
pub mod replay;
pub mod seeds;
pub mod strip_cases;
pub mod strip_read_bench;
pub mod strip_read_cases;
pub mod strip_read_tally;
pub mod strip_read_vectors;
pub mod strip_reads;
pub mod strip_vectors;
pub mod strips;
pub mod table;
pub mod tally;
pub mod timing;
pub mod vector_file;
pub mod vectors;
