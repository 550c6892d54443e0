//! A second monitor, in plain Rust, written from document 01 and the page of readings alone. It shares no code, table or generated
//! file with the proved crates. Its state is a page map: for each page who has it, and as what kind. There is no owner table; the state of document 01's "Machine
//! and numbers" is a picture of the board (`picture`), and a picture is well formed when a board can be made of it.
#![forbid(unsafe_code)]

pub mod board;
pub mod calls;
pub mod digest;
pub mod event;
pub mod line;
pub mod manifest;
pub mod picture;
pub mod program;
pub mod sha1;
