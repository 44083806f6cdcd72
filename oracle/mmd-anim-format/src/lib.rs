//! The Rust that is compared, unchanged and taken from where it stands, with plain data for the modules that are not there.
#![allow(dead_code, unused)]

pub mod binary {
    include!(concat!(env!("MMD_ANIM_FORMAT"), "/binary.rs"));
}

pub mod error {
    include!(concat!(env!("MMD_ANIM_FORMAT"), "/error.rs"));
}

pub mod sjis {
    include!(concat!(env!("MMD_ANIM_FORMAT"), "/sjis.rs"));

    /// A name's bytes as the Rust shows them: decoded by its own `decode_sjis_trim_nul`.
    pub fn oracle_name(bytes: &[u8]) -> Vec<u8> {
        encode_sjis(&decode_sjis_trim_nul(bytes))
    }

    /// The bytes behind a decoded text; the stand-in for Shift-JIS loses none.
    pub fn oracle_bytes(text: &str) -> Vec<u8> {
        encode_sjis(text)
    }
}

pub mod pmm;
pub mod pmx;
pub mod vmd;
