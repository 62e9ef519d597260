//! Random schedules: the same seed gives the same text. The generator plays each line on the model,
//! so that most deliveries find something on their link. And document 02's loads as schedules.

mod generator;
mod lines;
mod load;
mod random;
mod wrong;

pub use generator::{schedule, Generator};
pub use lines::line_of;
pub use load::load_text;
pub use random::Random;
pub use wrong::badge;
