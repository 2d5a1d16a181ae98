//! The library against document 01, read a second time.
//!
//! The module `document01` is an implementation of the document that shares nothing with the library.
//! Here both are given the same input, many thousand times, and must give the same answer: the same
//! number of refusal, the same length and the same content of the whole output that was lent.
//!
//! Every output is lent full of marks. After an accepted call its front is what document 01 gives and
//! everything past it is marks as before; after a refusal all of it is marks as before.
//!
//! Each test counts the answers that arose and fails when an answer that a call can give arose too
//! seldom, or one that it cannot give arose at all.

mod blocks;
mod body;
mod compare;
mod damaged_body;
mod damaged_file;
mod dice;
mod document01;
mod edges;
mod entries;
mod files;
mod input;
mod lent;
mod lists;
mod tally;
