//! The lowering as published, with the requests that change its records applied
//! as patches (`patches/`, by `build.rs`).

include!(concat!(env!("OUT_DIR"), "/root.rs"));
