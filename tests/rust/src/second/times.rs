//! The order of times, before anyone knows the moment of the press.

use crate::data::{Time, LATEST};

/// From one time to another.
#[derive(Clone, Copy, Debug, PartialEq, Eq)]
pub struct Interval {
    pub from: Time,
    pub to: Time,
}

/// What can be said of "this time is not after that time" without the moment of the press.
#[derive(Clone, Copy, Debug, PartialEq, Eq)]
pub enum Order {
    /// It holds or fails at every press alike.
    Decided(bool),
    /// It holds at presses from this moment on.
    From(u64),
    /// It holds at presses up to this moment.
    UpTo(u64),
}

/// What can be said of "left is not after right".
pub fn order(left: Time, right: Time) -> Order {
    match (left, right) {
        (Time::MinusInfinity, _) | (_, Time::PlusInfinity) => Order::Decided(true),
        (Time::PlusInfinity, _) | (_, Time::MinusInfinity) => Order::Decided(false),
        (Time::Moment(first), Time::Moment(second)) => Order::Decided(first <= second),
        (Time::Ctime, Time::Ctime) => Order::Decided(true),
        (Time::Moment(moment), Time::Ctime) => Order::From(moment),
        (Time::Ctime, Time::Moment(moment)) => Order::UpTo(moment),
    }
}

/// Whether a time is no moment past the latest.
pub fn in_range(time: Time) -> bool {
    match time {
        Time::Moment(moment) => moment <= LATEST,
        Time::MinusInfinity | Time::PlusInfinity | Time::Ctime => true,
    }
}
