//! Drills as people write and read them: the text of a drill, its bytes, words beside what the program prints, and a picture.
//! It knows the form of records and of lines, and leaves the rules to the program that it runs; it shares no code with the model.

pub mod accepting;
pub mod checking;
pub mod codes;
pub mod command;
pub mod entries;
pub mod expected;
mod grammar;
pub mod hex;
pub mod many;
pub mod marks;
pub mod names;
pub mod options;
pub mod picture;
pub mod pieces;
pub mod program;
pub mod reading;
pub mod record;
pub mod records;
pub mod run;
pub mod said;
pub mod saying;
pub mod slip;
pub mod source;
pub mod stations;
pub mod told;
pub mod words;
pub mod writing;
