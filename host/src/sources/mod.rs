//! Seeded makers of sources. The same seed gives the same sources on every machine.

mod damaged;
mod long;
mod parts;
mod realistic;
mod rng;
mod seams;
mod short;
mod valid;
mod writer;

pub use damaged::damaged;
pub use long::{declarations, on_one_line, padded, repeated};
pub use parts::cuts;
pub use realistic::{corpus, realistic, World, CONTROLLER, HEADS};
pub use rng::Rng;
pub use seams::{ended, more, SPARSE};
pub use short::{Frame, FRAMES};
pub use valid::valid;
