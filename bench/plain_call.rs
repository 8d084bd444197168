//! A call without proofs, for the plain programs here: its price, its ceiling and what money affords.

/// A day, in units of 100 ms.
pub const DAY: u64 = 864_000;
/// The most money that an account may have.
pub const MAX_MONEY: u64 = 1_000_000_000_000_000;

#[derive(Clone, Copy, Default)]
pub struct Times {
    pub before: u64,
    pub after: u64,
    pub switched: bool,
}

#[derive(Clone, Copy)]
pub struct Call {
    pub fee: u64,
    pub first: u64,
    pub second: Option<u64>,
    pub free: u64,
    pub times: Times,
    pub granted: u64,
    pub top: u64,
    pub open: bool,
    pub forfeit: bool,
}

impl Call {
    /// A call that was granted nothing yet.
    pub fn new(fee: u64, first: u64, second: Option<u64>, free: u64) -> Call {
        let times = Times::default();
        Call { fee, first, second, free, times, granted: 0, top: 0, open: true, forfeit: false }
    }

    /// What a report of this form gives the call.
    pub fn read(&self, switched: bool, time: u64, interval: Option<u64>) -> Times {
        if !switched {
            return Times { before: time, after: 0, switched: false };
        }
        let known = if self.times.switched { self.times.before } else { 0 };
        Times { before: interval.unwrap_or(known), after: time, switched: true }
    }

    /// Takes a report, and says whether it was lawful.
    pub fn settle(&mut self, times: Times) -> bool {
        if self.forfeit || times.before + times.after > DAY || !self.is_lawful(times, self.granted) {
            self.forfeit = true;
        } else {
            self.times = times;
        }
        !self.forfeit
    }

    /// Grants units where the money with what it holds covers the least of them, and the account's last
    /// moment isn't over; gives the units, or none.
    pub fn reserve(&mut self, wanted: u64, least: u64, late: bool, available: &mut u64) -> Option<u64> {
        let money = *available + self.top;
        let units = self.afford(wanted, money);
        if units < least || units == 0 || self.forfeit || late {
            return None;
        }
        self.granted = self.times.before + self.times.after + units;
        self.top = self.ceiling(units);
        *available = money - self.top;
        Some(units)
    }
}

impl Call {
    fn price(&self, before: u64, after: u64) -> u64 {
        if before + after == 0 {
            return 0;
        }
        let first = before.saturating_sub(self.free) * self.first;
        let second = after.saturating_sub(self.free.saturating_sub(before)) * self.second.unwrap_or(0);
        self.fee + (first + second).div_ceil(600)
    }

    pub fn is_lawful(&self, new: Times, granted: u64) -> bool {
        let old = self.times;
        new.before >= old.before
            && new.after >= old.after
            && (!old.switched || new.switched && new.before == old.before)
            && (!new.switched || self.second.is_some())
            && new.before + new.after <= granted
    }

    /// The greatest price after so many units more.
    pub fn ceiling(&self, units: u64) -> u64 {
        let Times { before, after, switched } = self.times;
        let first = if switched && units > 0 { 0 } else { self.price(before + units, after) };
        let second = if self.second.is_some() { self.price(before, after + units) } else { 0 };
        first.max(second)
    }

    pub fn afford(&self, wanted: u64, money: u64) -> u64 {
        let (mut least, mut most) = (0, wanted.min(DAY - self.times.before - self.times.after));
        if self.ceiling(most) <= money {
            return most;
        }
        while least < most {
            let middle = (least + most).div_ceil(2);
            if self.ceiling(middle) <= money {
                least = middle;
            } else {
                most = middle - 1;
            }
        }
        least
    }

    pub fn paid(&self) -> u64 {
        if self.forfeit { self.top } else { self.price(self.times.before, self.times.after) }
    }
}
