//! hybit-core, unchanged, from the sources that HYBIT_SRC names.

include!(concat!(env!("OUT_DIR"), "/modules.rs"));

pub use source::*;
