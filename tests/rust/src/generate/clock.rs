//! The times of one case: the press that its proof is made for, and a few moments that keep coming back.

use super::Random;
use crate::data::{Time, LATEST};

/// From and to.
#[derive(Clone, Copy, Debug, PartialEq, Eq)]
pub struct Span {
    pub from: Time,
    pub to: Time,
}

impl Span {
    /// The moment of the press.
    pub const PRESS: Span = Span {
        from: Time::Ctime,
        to: Time::Ctime,
    };

    /// All time.
    pub const ALWAYS: Span = Span {
        from: Time::MinusInfinity,
        to: Time::PlusInfinity,
    };
}

/// The press that the proof is made for, perhaps another one that it wavers to, and the moments of the case.
#[derive(Clone, Debug)]
pub struct Clock {
    press: u64,
    other: Option<u64>,
    moments: Vec<u64>,
}

/// A moment, more often a remarkable one.
pub fn any_moment(random: &mut Random) -> u64 {
    match random.below(8) {
        0 => 0,
        1 => LATEST,
        2 => LATEST - random.below(3),
        3 => random.below(3),
        4 => random.next() & LATEST,
        _ => 1000 + random.below(1000),
    }
}

impl Clock {
    /// A clock with its moments; seldom one that wavers.
    pub fn new(random: &mut Random) -> Clock {
        let press = any_moment(random);
        let mut moments = vec![
            press,
            press,
            press.saturating_sub(1),
            (press + 1).min(LATEST),
        ];
        for _ in 0..random.below(5) {
            moments.push(any_moment(random));
        }
        let other = random.one_in(5).then(|| *random.pick(&moments));
        Clock {
            press,
            other,
            moments,
        }
    }

    /// Moves a wavering clock to its other press, now and then.
    pub fn waver(&mut self, random: &mut Random) {
        if let Some(other) = self.other {
            if random.one_in(2) {
                self.other = Some(self.press);
                self.press = other;
            }
        }
    }

    /// Where a time stands at the press: minus infinity is -1, plus infinity is past the latest.
    pub fn stand(&self, time: Time) -> i64 {
        match time {
            Time::Moment(moment) => moment as i64,
            Time::MinusInfinity => -1,
            Time::PlusInfinity => LATEST as i64 + 1,
            Time::Ctime => self.press as i64,
        }
    }

    /// Whether one time is at most another at the press.
    pub fn at_most(&self, left: Time, right: Time) -> bool {
        self.stand(left) <= self.stand(right)
    }

    /// Whether one span covers another at the press.
    pub fn covers(&self, outer: Span, inner: Span) -> bool {
        self.at_most(outer.from, inner.from) && self.at_most(inner.to, outer.to)
    }

    /// The narrowest span that covers two others at the press.
    pub fn around_both(&self, one: Span, other: Span) -> Span {
        let earlier = self.at_most(one.from, other.from);
        let later = self.at_most(other.to, one.to);
        Span {
            from: if earlier { one.from } else { other.from },
            to: if later { one.to } else { other.to },
        }
    }

    /// A time from one to another at the press; the first where there is none.
    pub fn between(&self, random: &mut Random, low: Time, high: Time) -> Time {
        let mut times = vec![low, high, Time::Ctime, low, high];
        times.extend(self.fixed());
        times.retain(|time| self.at_most(low, *time) && self.at_most(*time, high));
        times.push(low);
        *random.pick(&times)
    }

    /// The same, never ctime.
    pub fn fixed_between(&self, random: &mut Random, low: Time, high: Time) -> Time {
        let mut times = self.fixed();
        times.retain(|time| self.at_most(low, *time) && self.at_most(*time, high));
        times.push(if low == Time::Ctime { high } else { low });
        self.without_ctime(*random.pick(&times))
    }

    /// A span that covers another at the press.
    pub fn around(&self, random: &mut Random, span: Span) -> Span {
        Span {
            from: self.between(random, Time::MinusInfinity, span.from),
            to: self.between(random, span.to, Time::PlusInfinity),
        }
    }

    /// The same time, with the press for ctime.
    fn without_ctime(&self, time: Time) -> Time {
        match time {
            Time::Ctime => Time::Moment(self.press),
            time => time,
        }
    }

    /// The same span, with the press for ctime.
    pub fn fixed_span(&self, span: Span) -> Span {
        Span {
            from: self.without_ctime(span.from),
            to: self.without_ctime(span.to),
        }
    }

    /// The times that are not ctime.
    fn fixed(&self) -> Vec<Time> {
        let mut times = vec![Time::MinusInfinity, Time::PlusInfinity];
        times.extend(self.moments.iter().map(|moment| Time::Moment(*moment)));
        times
    }

    /// Any time; ctime as often as asked, out of eight.
    pub fn any(&self, random: &mut Random, ctime_in_eight: u64) -> Time {
        if random.below(8) < ctime_in_eight {
            return Time::Ctime;
        }
        *random.pick(&self.fixed())
    }

    /// A span from any time to any other.
    pub fn any_span(&self, random: &mut Random) -> Span {
        Span {
            from: self.any(random, 2),
            to: self.any(random, 2),
        }
    }

    /// The same time at the press, perhaps spelled another way.
    pub fn respelled(&self, random: &mut Random, time: Time) -> Time {
        if self.stand(time) != self.press as i64 || !random.one_in(4) {
            return time;
        }
        *random.pick(&[Time::Ctime, Time::Moment(self.press)])
    }

    /// The press that the proof is made for.
    pub fn press(&self) -> u64 {
        self.press
    }
}
