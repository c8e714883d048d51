//! The original back end (ippan/clover), compiled in place. See build.rs.
#![allow(warnings)]

include!(concat!(env!("OUT_DIR"), "/modules.rs"));

/// `object.rs` names the position type through this module.
pub mod debug {
    pub use crate::intermediate::Position;
}

/// `Program::serialize` writes it; nothing here calls that.
pub mod version {
    pub const MAJOR: u8 = 0;
    pub const MINOR: u8 = 0;
    pub const PATCH: u8 = 0;
}
