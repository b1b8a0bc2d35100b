//! Holds the library `libreplica.a` and the program `cabinet` against the second implementation.

pub mod caller;
pub mod events;
pub mod hex;
pub mod layout;
pub mod lent;
pub mod library;
pub mod measured;
pub mod meetings;
pub mod metres;
pub mod modes;
pub mod program;
pub mod ratios;
pub mod replica;
pub mod rows;
pub mod stack;
pub mod states;
pub mod streams;
pub mod writer;
