//! The operator's command, hollytrot, as a process. What it prints is compared with the reference program; faults of
//! its inputs, outputs and arguments get status 2 and a line on standard error.

mod agreed;
mod arguments;
mod days;
mod expected;
mod folder;
mod formats;
mod html;
mod json;
mod long;
mod names;
mod process;
mod progress;
#[path = "../common/random_day.rs"]
mod random_day;
mod reading;
mod slips;
mod text;
mod writing;
