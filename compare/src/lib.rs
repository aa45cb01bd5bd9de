//! The judge: says whether two sets of devices answer a list of accesses alike.
//!
//! Lists and answers are in the replay format (`format`). A set of devices is anything that implements
//! `devices::Devices`; `driver` drives one through a list. `account` is such a set, written down from an
//! account of what our devices do, or vm-superio's; `faulty` is ours with one fault planted in it, `rows` says
//! where the two differ. `generate` makes lists, `answerer` runs a program on one, `difference` and
//! `shrink` find where two programs differ and the shortest run that shows it.

pub mod account;
pub mod answerer;
pub mod command_line;
pub mod devices;
pub mod difference;
pub mod driver;
pub mod faulty;
pub mod format;
pub mod generate;
pub mod rows;
pub mod shrink;
