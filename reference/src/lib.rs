//! A reference implementation of the replicated tuple space of document 01, with L1 to L4 of document 02.
//! It works on plain lists; bytes are read to lists and written back.

pub mod call;
pub mod generate;
pub mod layout;
pub mod lines;
pub mod matching;
pub mod meeting;
pub mod run;
pub mod statement;
pub mod value;
pub mod writer;
