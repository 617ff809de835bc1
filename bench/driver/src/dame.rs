//! The rules of dame-rs, unchanged, from the checkout that DAME_RS names. Its files name each other by `crate::`, so
//! they are a crate of their own.
#![allow(dead_code)]

include!(concat!(env!("OUT_DIR"), "/modules.rs"));
