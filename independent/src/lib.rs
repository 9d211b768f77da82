//! The board's time keeper: an interval of moments that is known to contain
//! the true time of the last tick, kept up to date from ticks of the board's
//! counter and from replies of other boards. Also the calls that write a
//! command as its line, and those that convert dates and moments.
//!
//! Written from the specification alone. The library needs no heap and no
//! operating system.

#![no_std]
#![forbid(unsafe_code)]

mod answer;
mod between_ticks;
mod calendar;
mod calls;
mod command;
mod date;
mod flight;
mod gregorian;
mod image;
mod interval;
mod keeper;
pub mod limits;
mod numeral;
mod reader;
mod refusal;
mod spelling;
mod uplink;
mod window;
mod writer;

pub use answer::{answer_line, pass, Answered};
pub use calendar::{date_of, moment_of};
pub use image::{answer_image, fresh_image, pass_image, IMAGE_LENGTH, WRONG_LENGTH};
pub use keeper::{Keeper, Rule};
pub use uplink::{
    plain, write_drop, write_flight, write_pass, write_read, write_reply, write_request,
    write_start, write_waiting, write_window, Written,
};
