//! A second implementation of the carrier lane, to test another one against
//! and to measure it by.
//!
//! It is written from the paper alone. A [`Lane`] is plain data that a test
//! can fill in as it likes, and its calls change it in place. Floats are
//! taken apart by their bits. Stopping distances are summed cycle by cycle,
//! as the paper has them; a [`FastLane`] has them in closed form.
//!
//! [`road_book`] checks a history of calls against where carriers that drive
//! as told must be; [`random`] makes histories and texts that crowd the edges.

pub mod call;
pub mod carrier;
pub mod headway;
pub mod lane;
pub mod program;
pub mod random;
pub mod refusal;
pub mod road;
pub mod road_book;
pub mod stopping;
pub mod surface;
pub mod text;
pub mod wish;

pub use call::{Answer, Call};
pub use carrier::{Carrier, Newcomer};
pub use lane::{Cycled, FastLane, Gap, Lane, Lookup, Opening, Reading, Supervisor, PLACES};
pub use refusal::Refusal;
pub use road::Road;
pub use surface::{Row, Table, Tables};
pub use wish::Wish;
