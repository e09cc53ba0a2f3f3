//! The plain book, written from the documents alone: 01, and 02 for places to
//! return to and marks of 64 bits. It knows nothing of the monitor; every program
//! that compares the two shares this folder.

// Each program uses its own part of the book.
#![allow(dead_code)]

pub mod allowed;
pub mod book;
pub mod chain;
pub mod grammar;
pub mod image;
pub mod judge;
pub mod marks;
pub mod matcher;
pub mod meets;
pub mod reply;
pub mod restore;
pub mod roles;
pub mod rule;
pub mod session_book;
pub mod survey;
pub mod text;
pub mod tree;
