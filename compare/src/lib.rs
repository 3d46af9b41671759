//! Dartelm's calls against a plain Rust implementation of the same documents 01 and 02.

#![deny(unsafe_code)]

pub mod calls;
pub mod console;
#[allow(unsafe_code)]
pub mod ffi;
pub mod laid;
pub mod layout;
pub mod limit;
pub mod plain;
pub mod random;
pub mod rows;
pub mod structs;
