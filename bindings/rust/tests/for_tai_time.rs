//! Programs for tai-time, run on this crate under tai-time's name. The oracle's tests run the same files on tai-time.

extern crate admezgast as tai_time;

#[path = "tai_time/examples.rs"]
mod examples;
#[path = "tai_time/shapes.rs"]
mod shapes;
