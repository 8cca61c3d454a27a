//! A second opinion on which satellite files are accepted and which field of the others is at fault, what
//! their quality flag says, which headers are read and written, what frames show, which number a shot has
//! on the film, which reels are opened and written, what a night's files add up to and why a file is not
//! one of a slate's, from documents 01 and 02 alone, and the inputs on which it is compared with the proved
//! library and with what the programs of cases must print.

pub mod accept;
pub mod assemble;
pub mod breach;
pub mod damage;
pub mod film;
pub mod histories;
pub mod images;
pub mod lists;
pub mod make;
pub mod mix;
pub mod night;
pub mod nights;
pub mod poses;
pub mod proved;
pub mod quality;
pub mod random;
pub mod readers;
pub mod reel;
pub mod shots;
pub mod spoken;
pub mod takes;
pub mod tally;
pub mod values;
pub mod why;
pub mod whys;

pub use accept::{accept, numbers, Answer, Facts, Refusal, FINE};
pub use values::Values;
