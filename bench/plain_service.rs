//! The service without proofs, for the plain programs here: its accounts, its tariff and the dialogues of its calls. It
//! takes the words of a run as they are where they are left out, and a tariff and a setup that are right.
use crate::plain_call::{Call, DAY, MAX_MONEY};
use std::collections::{BTreeMap, HashMap};
use std::fmt::Write as _;

const WANTED: u64 = 600;
const LEAST: u64 = 50;

#[derive(Clone, Copy)]
pub enum Operation {
    Arm,
    Charge { period: u64, switch: Option<u64>, last: bool },
    GoOn,
    /// A run prints no cause.
    #[allow(dead_code)]
    Release { cause: u8 },
}

#[derive(Clone, Copy)]
pub enum Message<'a> {
    InitialDp { calling: &'a str, called: &'a str },
    Answered,
    Event { waits: bool },
    Report { active: bool, switched: bool, time: u64, interval: Option<u64> },
    Ended,
    Recharge { account: u32, amount: u64 },
}

struct Account {
    opening: u64,
    funds: u64,
    available: u64,
    entries: u64,
}

/// The service's side of a call.
struct Dialogue {
    account: u32,
    ending: bool,
}

struct Band {
    start: u64,
    fee: u64,
    rate: u64,
}

pub struct Service<'a> {
    tariff: HashMap<&'a str, Vec<Band>>,
    accounts: BTreeMap<u32, Account>,
    subscribers: HashMap<&'a str, u32>,
    dialogues: HashMap<u64, Dialogue>,
    calls: HashMap<u64, (u32, Call)>,
}

/// The fields of each row of a table, behind its header.
pub fn rows_of(part: &str) -> impl Iterator<Item = Vec<&str>> {
    part.lines().skip(1).map(|line| line.split(',').collect())
}

impl<'a> Service<'a> {
    /// A service with a tariff and a setup, before its first message.
    pub fn new(bands: &'a str, setup: &'a str) -> Service<'a> {
        let mut tariff: HashMap<&str, Vec<Band>> = HashMap::new();
        for row in rows_of(bands) {
            let (hours, minutes) = row[1].split_once(':').unwrap();
            let start = (hours.parse::<u64>().unwrap() * 60 + minutes.parse::<u64>().unwrap()) * 600;
            let (fee, rate) = (row[2].parse().unwrap(), row[3].parse().unwrap());
            tariff.entry(row[0]).or_default().push(Band { start, fee, rate });
        }
        tariff.values_mut().for_each(|bands| bands.sort_by_key(|band| band.start));
        let (mut accounts, mut subscribers) = (BTreeMap::new(), HashMap::new());
        for row in rows_of(setup) {
            if row[0] == "account" {
                let opening = row[2].parse().unwrap();
                let account = Account { opening, funds: opening, available: opening, entries: 0 };
                accounts.insert(row[1].parse().unwrap(), account);
            } else {
                subscribers.insert(row[1], row[2].parse().unwrap());
            }
        }
        Service { tariff, accounts, subscribers, dialogues: HashMap::new(), calls: HashMap::new() }
    }

    /// A call on the route of a number, and the moment of its switch.
    fn route(&self, called: &str, now: u64) -> Option<(Call, Option<u64>)> {
        let bands = (0..=called.len().min(15)).rev().find_map(|length| self.tariff.get(&called[..length]))?;
        let time = now % DAY;
        let at = bands.partition_point(|band| band.start <= time) - 1;
        if bands.len() == 1 {
            return Some((Call::new(bands[at].fee, bands[at].rate, None, 0), None));
        }
        let next = &bands[(at + 1) % bands.len()];
        let wait = if next.start > time { next.start - time } else { DAY - time + next.start };
        Some((Call::new(bands[at].fee, bands[at].rate, Some(next.rate), 0), Some(now + wait)))
    }

    /// Answers a message, and says whether it had a place.
    pub fn hear(&mut self, now: u64, key: u64, message: Message, say: &mut impl FnMut(Operation)) -> bool {
        if let Message::Recharge { account, amount } = message {
            return self.recharge(account, amount);
        }
        let Some(dialogue) = self.dialogues.get_mut(&key) else {
            let Message::InitialDp { calling, called } = message else { return false };
            self.begin(now, key, calling, called, say);
            return true;
        };
        let (account, ending) = (dialogue.account, dialogue.ending);
        match message {
            Message::InitialDp { .. } => return false,
            Message::Answered if !ending => {}
            Message::Report { active, switched, time, interval } if !ending => {
                let settled = self.settle(account, key, switched, time, interval);
                let granted = if active && settled { self.reserve(account, key) } else { None };
                if let Some((units, last)) = granted {
                    say(Operation::Charge { period: units, switch: None, last });
                    return true;
                }
                self.give_back(account, key);
                self.dialogues.get_mut(&key).unwrap().ending = true;
                if active {
                    say(Operation::Release { cause: if settled { 16 } else { 41 } });
                }
            }
            Message::Event { waits } => {
                if !ending {
                    self.give_back(account, key);
                    self.dialogues.get_mut(&key).unwrap().ending = true;
                }
                if waits {
                    say(Operation::GoOn);
                }
            }
            Message::Ended => {
                if !ending {
                    self.give_back(account, key);
                }
                self.dialogues.remove(&key);
            }
            Message::Answered | Message::Recharge { .. } => {}
            Message::Report { .. } => return false,
        }
        true
    }

    fn begin(&mut self, now: u64, key: u64, calling: &str, called: &str, say: &mut impl FnMut(Operation)) {
        let Some(&account) = self.subscribers.get(calling) else {
            say(Operation::Release { cause: 21 });
            return;
        };
        self.dialogues.insert(key, Dialogue { account, ending: true });
        let Some((call, switch_at)) = self.route(called, now) else {
            say(Operation::Release { cause: 1 });
            return;
        };
        self.calls.insert(key, (account, call));
        let Some((units, last)) = self.reserve(account, key) else {
            self.calls.remove(&key);
            say(Operation::Release { cause: 21 });
            return;
        };
        self.dialogues.insert(key, Dialogue { account, ending: false });
        say(Operation::Arm);
        let switch = switch_at.map(|at| (at - now).div_ceil(10));
        say(Operation::Charge { period: units, switch, last });
        say(Operation::GoOn);
    }

    fn reserve(&mut self, account: u32, key: u64) -> Option<(u64, bool)> {
        let account = self.accounts.get_mut(&account).unwrap();
        account.entries += 1;
        let (_, call) = self.calls.get_mut(&key).unwrap();
        let units = call.reserve(WANTED, LEAST, false, &mut account.available)?;
        Some((units, units < WANTED))
    }

    fn settle(&mut self, account: u32, key: u64, switched: bool, time: u64, interval: Option<u64>) -> bool {
        self.accounts.get_mut(&account).unwrap().entries += 1;
        let (_, call) = self.calls.get_mut(&key).unwrap();
        let times = call.read(switched, time, interval);
        call.settle(times)
    }

    fn give_back(&mut self, account: u32, key: u64) {
        let account = self.accounts.get_mut(&account).unwrap();
        let (_, call) = self.calls.get_mut(&key).unwrap();
        call.open = false;
        account.entries += 1;
        account.available += call.top - call.paid();
    }

    fn recharge(&mut self, account: u32, amount: u64) -> bool {
        let Some(account) = self.accounts.get_mut(&account) else { return false };
        if amount == 0 {
            return true;
        }
        account.entries += 1;
        if account.funds + amount <= MAX_MONEY {
            account.funds += amount;
            account.available += amount;
        }
        true
    }

    pub fn lines(&self) -> String {
        let mut text = String::new();
        for (number, it) in &self.accounts {
            let Account { opening, available, entries, .. } = it;
            writeln!(text, "account {number} opening {opening} available {available} entries {entries}").unwrap();
        }
        let mut calls: Vec<_> = self.calls.iter().collect();
        calls.sort_by_key(|(key, _)| **key);
        for (key, (account, call)) in calls {
            let word = if call.forfeit { "forfeit" } else if call.open { "holding" } else { "returned" };
            writeln!(text, "call {key} account {account} paid {} {word}", call.paid()).unwrap();
        }
        text
    }
}

