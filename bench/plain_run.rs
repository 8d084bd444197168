//! `run` without proofs, as a baseline: one thread, a heap of moments at which timers are due, and maps of calls. It
//! takes the delay, the times and the words of a run as they are where they are left out, and a tariff, a setup and a
//! script that are right.
mod plain_call;
mod plain_service;

use plain_call::DAY;
use plain_service::{Message, Operation, Service, rows_of};
use std::cmp::Reverse;
use std::collections::{BinaryHeap, HashMap, VecDeque};
use std::io::{Read, Write};

const TSSF: u64 = 100;
const TCCD: u64 = 50;
const DELAY: u64 = 2;

#[derive(Clone, Copy, PartialEq)]
enum State {
    Initial,
    Setup,
    Active,
    Down,
    Ended,
}

/// The gsmSSF of a call.
struct Switch {
    state: State,
    armed: bool,
    pending: bool,
    last: bool,
    granted: u64,
    answered: u64,
    switched: Option<u64>,
    /// When Tsw, Tcp, Tccd and Tssf are due.
    timers: [Option<u64>; 4],
}

const TSW: usize = 0;
const TCP: usize = 1;
const TCCD_AT: usize = 2;
const TSSF_AT: usize = 3;

impl Switch {
    fn new(now: u64) -> Switch {
        let timers = [None, None, None, Some(now + TSSF)];
        let (state, switched) = (State::Initial, None);
        Switch { state, armed: false, pending: false, last: false, granted: 0, answered: 0, switched, timers }
    }

    fn next_due(&self) -> Option<u64> {
        self.timers.iter().copied().flatten().min()
    }

    fn end<'a>(&mut self, sent: &mut Vec<Message<'a>>) {
        self.state = State::Ended;
        self.pending = false;
        self.timers = [None; 4];
        sent.push(Message::Ended);
    }

    fn report<'a>(&self, now: u64, active: bool, sent: &mut Vec<Message<'a>>) {
        let (switched, time, interval) = match self.switched {
            None => (false, now - self.answered, None),
            Some(at) if at > self.answered => (true, now - at, Some(at - self.answered)),
            Some(_) => (true, now - self.answered, None),
        };
        sent.push(Message::Report { active, switched, time, interval });
    }

    fn last_report<'a>(&self, now: u64, sent: &mut Vec<Message<'a>>) {
        if self.state == State::Active && self.pending {
            self.report(now, false, sent);
        }
    }

    fn run_timers<'a>(&mut self, now: u64, sent: &mut Vec<Message<'a>>) {
        while let Some(due) = self.next_due().filter(|due| *due <= now) {
            let timer = self.timers.iter().position(|it| *it == Some(due)).unwrap();
            self.timers[timer] = None;
            match timer {
                TSW => self.switched = Some(due),
                TCP => {
                    self.report(due, !self.last, sent);
                    self.pending = false;
                    if self.last {
                        self.end(sent);
                    } else {
                        self.timers[TCCD_AT] = Some(due + TCCD);
                    }
                }
                _ => self.end(sent),
            }
        }
    }

    fn operate<'a>(&mut self, now: u64, operation: Operation, sent: &mut Vec<Message<'a>>) {
        self.run_timers(now, sent);
        match (operation, self.state) {
            (Operation::Arm, State::Initial | State::Down) => {
                self.armed = true;
                self.timers[TSSF_AT] = Some(now + TSSF);
            }
            (Operation::Arm, State::Setup | State::Active) => self.armed = true,
            (Operation::Charge { period, switch, last }, State::Initial | State::Setup) if !self.pending => {
                self.granted = period;
                if self.state == State::Initial {
                    self.timers[TSSF_AT] = Some(now + TSSF);
                }
                self.take_period(now, switch, last);
            }
            (Operation::Charge { period, switch, last }, State::Active)
                if self.timers[TCCD_AT].is_some()
                    && self.granted + period <= DAY
                    && now < self.answered + self.granted + period =>
            {
                self.timers[TCCD_AT] = None;
                self.granted += period;
                self.timers[TCP] = Some(self.answered + self.granted);
                self.take_period(now, switch, last);
            }
            (Operation::GoOn, State::Initial) if self.armed || self.pending => {
                self.state = State::Setup;
                self.timers[TSSF_AT] = None;
            }
            (Operation::GoOn, State::Initial | State::Down) => self.end(sent),
            (Operation::Release { .. }, State::Initial | State::Setup | State::Active | State::Down) => {
                self.last_report(now, sent);
                self.end(sent);
            }
            _ => {}
        }
    }

    fn take_period(&mut self, now: u64, switch: Option<u64>, last: bool) {
        self.pending = true;
        self.last = last;
        if let (Some(seconds), None) = (switch, self.switched) {
            self.timers[TSW] = Some(now + 10 * seconds);
        }
    }

    fn meet<'a>(&mut self, now: u64, event: &str, sent: &mut Vec<Message<'a>>) {
        self.run_timers(now, sent);
        match (event, self.state) {
            ("answer", State::Setup) => {
                self.answered = now;
                self.state = State::Active;
                if self.pending {
                    self.timers[TCP] = Some(now + self.granted);
                }
                if self.armed {
                    sent.push(Message::Answered);
                }
            }
            ("abandon", State::Initial | State::Setup) | ("busy" | "noanswer" | "routefail", State::Setup) => {
                if self.armed {
                    sent.push(Message::Event { waits: false });
                }
                self.end(sent);
            }
            ("disconnect", State::Active) => {
                self.last_report(now, sent);
                if self.armed {
                    sent.push(Message::Event { waits: true });
                    self.state = State::Down;
                    self.pending = false;
                    self.timers = [None, None, None, Some(now + TSSF)];
                } else {
                    self.end(sent);
                }
            }
            _ => {}
        }
    }
}

/// The gsmSSFs of a run, the operations on their way to them, and what they have sent in a round.
#[derive(Default)]
struct Network<'a> {
    switches: HashMap<u64, Switch>,
    deliveries: VecDeque<(u64, u64, Operation)>,
    dues: BinaryHeap<Reverse<(u64, u64)>>,
    posts: Vec<(u64, Message<'a>)>,
}

impl<'a> Network<'a> {
    /// Gives the gsmSSF of a call an input.
    fn give(&mut self, key: u64, input: impl FnOnce(&mut Switch, &mut Vec<Message<'a>>)) {
        let switch = self.switches.get_mut(&key).unwrap();
        let mut sent = Vec::new();
        input(switch, &mut sent);
        self.posts.extend(sent.into_iter().map(|message| (key, message)));
        self.dues.extend(switch.next_due().map(|due| Reverse((due, key))));
    }

    /// When a timer is due first. What the heap has of a timer that was stopped is dropped.
    fn first_due(&mut self) -> Option<u64> {
        while let Some(Reverse((due, key))) = self.dues.peek() {
            if self.switches[key].next_due() == Some(*due) {
                return Some(*due);
            }
            self.dues.pop();
        }
        None
    }

    /// Plays a row.
    fn happen(&mut self, now: u64, row: &[&'a str]) {
        if row[2] == "recharge" {
            let (account, amount) = (row[3].parse().unwrap(), row[4].parse().unwrap());
            self.posts.push((0, Message::Recharge { account, amount }));
            return;
        }
        let key = row[1].parse().unwrap();
        if row[2] == "start" {
            self.switches.insert(key, Switch::new(now));
            self.give(key, |_, sent| sent.push(Message::InitialDp { calling: row[3], called: row[4] }));
        } else {
            self.give(key, |switch, sent| switch.meet(now, row[2], sent));
        }
    }

    /// Plays the inputs of a moment: what is delivered, the rows, and the timers in ascending order of the calls.
    fn round(&mut self, now: u64, rows: &[Vec<&'a str>]) {
        while self.deliveries.front().is_some_and(|(at, _, _)| *at == now) {
            let (_, key, operation) = self.deliveries.pop_front().unwrap();
            self.give(key, |switch, sent| switch.operate(now, operation, sent));
        }
        for row in rows {
            self.happen(now, row);
        }
        while self.first_due().is_some_and(|due| due <= now) {
            let Some(Reverse((_, key))) = self.dues.pop() else { return };
            self.give(key, |switch, sent| switch.run_timers(now, sent));
        }
    }
}

/// Plays the rows of a script, moment by moment.
fn play<'a>(service: &mut Service<'a>, rows: &[Vec<&'a str>]) {
    let mut network = Network::default();
    let moments: Vec<u64> = rows.iter().map(|row| row[0].parse().unwrap()).collect();
    let mut next = 0;
    loop {
        let first = network.deliveries.front().map(|(at, _, _)| *at);
        let moment = [moments.get(next).copied(), first, network.first_due()].into_iter().flatten().min();
        let Some(now) = moment else { return };
        let end = next + moments[next..].iter().take_while(|at| **at == now).count();
        network.round(now, &rows[next..end]);
        next = end;
        let Network { posts, deliveries, .. } = &mut network;
        for (key, message) in posts.drain(..) {
            service.hear(now, key, message, &mut |it| deliveries.push_back((now + DELAY, key, it)));
        }
    }
}

fn main() {
    let mut input = String::new();
    std::io::stdin().read_to_string(&mut input).unwrap();
    let sections: Vec<&str> = input.split("%%\n").collect();
    let script: Vec<Vec<&str>> = rows_of(sections[2]).collect();
    let mut service = Service::new(sections[0], sections[1]);
    play(&mut service, &script);
    std::io::stdout().write_all(service.lines().as_bytes()).unwrap();
}
