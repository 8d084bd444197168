//! An account without proofs, for `plain_contend`: the same operations, judgement, entries and maps
//! as the proved one, and its seats with their own lists.
use crate::plain_call::{Call, Times, DAY, MAX_MONEY};
use std::collections::{BTreeMap, TryReserveError};

#[derive(Clone, Copy)]
pub struct Plan {
    pub fee: u64,
    pub before: u64,
    pub after: Option<u64>,
    pub free: u32,
}

#[derive(Clone, Copy)]
#[allow(dead_code)]
pub enum TimeInfo {
    NoSwitch { t: u32 },
    Switch { since: u32, interval: Option<u32> },
}

#[derive(Clone, Copy)]
pub enum Op {
    Credit { amount: u64, until: Option<u64> },
    Reserve { call: u64, plan: Plan, wanted: u32, least: u32, at: u64 },
    Settle { call: u64, #[allow(dead_code)] number: u64, info: TimeInfo },
    Return { call: u64 },
}

#[derive(Clone, Copy)]
#[allow(dead_code)]
pub enum Reply {
    Credited { available: u64 },
    CreditOver { available: u64 },
    Granted { units: u32, last: bool, available: u64 },
    Denied { available: u64 },
    Settled { paid: u64, available: u64 },
    Forfeit { paid: u64, available: u64 },
    Returned { paid: u64, available: u64 },
}

#[derive(Clone, Copy)]
#[allow(dead_code)]
pub struct Entry {
    pub seat: u32,
    pub op: Op,
    pub reply: Reply,
}

#[derive(Debug)]
pub enum Fault {
    OutOfRange,
    NotOpen,
    CallUsed,
    HistoryFull,
    OutOfMemory,
}

impl From<TryReserveError> for Fault {
    fn from(_error: TryReserveError) -> Fault {
        Fault::OutOfMemory
    }
}

/// How far a call is.
#[derive(Clone, Copy, PartialEq)]
pub enum Stage {
    Fresh,
    Awaits,
    Reported,
    Over,
}

impl Stage {
    /// The places that an operation needs, beside those that are owed.
    fn needed(self, op: &Op) -> usize {
        match (op, self) {
            (Op::Credit { .. }, _) | (Op::Reserve { .. }, Stage::Awaits) => 1,
            (Op::Reserve { .. }, Stage::Reported) => 2,
            (Op::Reserve { .. }, _) => 3,
            (_, Stage::Awaits) => 0,
            (Op::Settle { .. }, _) => 1,
            (Op::Return { .. }, Stage::Reported) => 0,
            (Op::Return { .. }, _) => 1,
        }
    }

    fn owed(self) -> usize {
        match self {
            Stage::Fresh | Stage::Over => 0,
            Stage::Awaits => 2,
            Stage::Reported => 1,
        }
    }

    fn after(self, reply: Reply) -> Stage {
        match reply {
            Reply::Granted { .. } => Stage::Awaits,
            Reply::Settled { .. } | Reply::Forfeit { .. } => Stage::Reported,
            Reply::Returned { .. } => Stage::Over,
            _ => self,
        }
    }
}

fn call_of(op: &Op) -> Option<u64> {
    match *op {
        Op::Credit { .. } => None,
        Op::Reserve { call, .. } | Op::Settle { call, .. } | Op::Return { call } => Some(call),
    }
}

pub struct Account {
    entries: Vec<Entry>,
    calls: BTreeMap<u64, (Call, Stage)>,
    limit: usize,
    funds: u64,
    available: u64,
    last_moment: Option<u64>,
    owed: usize,
}

impl Account {
    pub fn new(opening: u64, limit: usize) -> Account {
        Account {
            entries: Vec::new(),
            calls: BTreeMap::new(),
            limit,
            funds: opening,
            available: opening,
            last_moment: None,
            owed: 0,
        }
    }

    fn judge(&self, op: &Op, stage: Stage) -> Result<(), Fault> {
        match (op, stage) {
            (Op::Credit { amount, .. }, _) if *amount == 0 || *amount > MAX_MONEY => return Err(Fault::OutOfRange),
            (Op::Reserve { wanted, least, .. }, _)
                if *wanted == 0 || u64::from(*wanted) > DAY || u64::from(*least) > DAY =>
            {
                return Err(Fault::OutOfRange)
            }
            (Op::Reserve { .. }, Stage::Over) => return Err(Fault::CallUsed),
            (Op::Settle { .. } | Op::Return { .. }, Stage::Fresh | Stage::Over) => return Err(Fault::NotOpen),
            _ => (),
        }
        if self.entries.len() + self.owed + stage.needed(op) > self.limit {
            return Err(Fault::HistoryFull);
        }
        Ok(())
    }

    fn credit(&mut self, amount: u64, until: Option<u64>) -> Reply {
        if self.funds + amount > MAX_MONEY {
            return Reply::CreditOver { available: self.available };
        }
        self.funds += amount;
        self.available += amount;
        self.last_moment = until.or(self.last_moment);
        Reply::Credited { available: self.available }
    }

    /// What a call is answered; it changes the call and the credit.
    fn answer(&mut self, op: &Op, call: &mut Call) -> Reply {
        match *op {
            Op::Credit { amount, until } => self.credit(amount, until),
            Op::Reserve { wanted, least, at, .. } => {
                let late = self.last_moment.is_some_and(|last| at > last);
                match call.reserve(u64::from(wanted), u64::from(least), late, &mut self.available) {
                    Some(units) => {
                        Reply::Granted { units: units as u32, last: units < u64::from(wanted), available: self.available }
                    }
                    None => Reply::Denied { available: self.available },
                }
            }
            Op::Settle { info, .. } => {
                let times: Times = match info {
                    TimeInfo::NoSwitch { t } => call.read(false, u64::from(t), None),
                    TimeInfo::Switch { since, interval } => call.read(true, u64::from(since), interval.map(u64::from)),
                };
                let (lawful, paid) = (call.settle(times), call.paid());
                let available = self.available;
                if lawful { Reply::Settled { paid, available } } else { Reply::Forfeit { paid, available } }
            }
            Op::Return { .. } => {
                let paid = call.paid();
                self.available += call.top - paid;
                Reply::Returned { paid, available: self.available }
            }
        }
    }

    /// Answers an operation, and keeps its entry here and in the seat's list.
    pub fn apply(&mut self, seat: &mut Seat, op: Op) -> Result<Reply, Fault> {
        let key = call_of(&op);
        let known = key.and_then(|key| self.calls.get(&key)).copied();
        let stage = known.map_or(Stage::Fresh, |(_, stage)| stage);
        self.judge(&op, stage)?;
        seat.make_room(&op)?;
        self.entries.try_reserve(self.owed + stage.needed(&op))?;
        let mut call = match (known, op) {
            (Some((call, _)), _) => call,
            (None, Op::Reserve { plan, .. }) => Call::new(plan.fee, plan.before, plan.after, u64::from(plan.free)),
            (None, _) => Call::new(0, 0, None, 0),
        };
        let reply = self.answer(&op, &mut call);
        let entry = Entry { seat: seat.number, op, reply };
        self.entries.push(entry);
        if let Some(key) = key {
            let after = stage.after(reply);
            self.owed = self.owed + after.owed() - stage.owed();
            self.calls.insert(key, (call, after));
        }
        seat.keep(entry);
        Ok(reply)
    }
}

/// A seat, with its own list and the room that its calls need there.
pub struct Seat {
    number: u32,
    pub entries: Vec<Entry>,
    stages: BTreeMap<u64, Stage>,
    owed: usize,
}

impl Seat {
    pub fn new(number: u32) -> Seat {
        Seat { number, entries: Vec::new(), stages: BTreeMap::new(), owed: 0 }
    }

    fn make_room(&mut self, op: &Op) -> Result<(), Fault> {
        let stage = call_of(op).map_or(Stage::Fresh, |key| *self.stages.entry(key).or_insert(Stage::Fresh));
        self.entries.try_reserve(self.owed + stage.needed(op))?;
        Ok(())
    }

    fn keep(&mut self, entry: Entry) {
        if let Some(stage) = call_of(&entry.op).and_then(|key| self.stages.get_mut(&key)) {
            let before = stage.owed();
            *stage = stage.after(entry.reply);
            self.owed = self.owed + stage.owed() - before;
        }
        self.entries.push(entry);
    }
}
