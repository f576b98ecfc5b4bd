//! A second program for LOAS/LATM captures; reading, hunting and writing are from document 01 alone, rows
//! from document 01 and C-11 of document 02.
//! It shares no code with the library and is there to be compared with it.

pub mod answers;
pub mod bits;
pub mod broken;
pub mod capture;
pub mod cases;
pub mod damage;
pub mod draw;
pub mod layout;
pub mod listing;
pub mod maker;
pub mod random;
pub mod read;
pub mod record;
pub mod refusal;
pub mod rows;
pub mod script;
pub mod summary;
pub mod sync;
pub mod words;
pub mod write;
