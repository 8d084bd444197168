//! `contend` without proofs, as a baseline: `plain_contend FORM MIX THREADS ACCOUNTS EACH`. FORM is
//! `mutex`, a `std::sync::Mutex` round each account, or `ticket`, a lock that is handed on in the
//! order of its tickets and whose waiters sleep.
mod plain_account;
#[allow(dead_code)]
mod plain_call;

use plain_account::{Account, Op, Plan, Seat, TimeInfo};
use std::cell::UnsafeCell;
use std::hint::black_box;
use std::sync::atomic::{AtomicU64, Ordering::SeqCst};
use std::sync::{Arc, Condvar, Mutex};
use std::time::Instant;

const LIMIT: usize = 1_000_000;
const OPENING: u64 = 500_000_000_000_000;

/// What an account is shared by.
trait Shared: Send + Sync + 'static {
    fn new(account: Account) -> Self;

    fn call(&self, seat: &mut Seat, op: Op);
}

impl Shared for Mutex<Account> {
    fn new(account: Account) -> Self {
        Mutex::new(account)
    }

    fn call(&self, seat: &mut Seat, op: Op) {
        self.lock().unwrap().apply(seat, op).unwrap();
    }
}

/// How often a thread looks whether its turn has come before it sleeps.
const LOOKS: u32 = 64;

struct Ticket {
    next: AtomicU64,
    serving: AtomicU64,
    asleep: Mutex<()>,
    passed_on: Condvar,
    account: UnsafeCell<Account>,
}

// SAFETY: the account is touched just by the thread whose ticket is served.
unsafe impl Sync for Ticket {}

impl Ticket {
    fn wait(&self, ticket: u64) {
        for _ in 0..LOOKS {
            if self.serving.load(SeqCst) == ticket {
                return;
            }
            std::thread::yield_now();
        }
        let mut asleep = self.asleep.lock().unwrap();
        while self.serving.load(SeqCst) != ticket {
            asleep = self.passed_on.wait(asleep).unwrap();
        }
    }
}

impl Shared for Ticket {
    fn new(account: Account) -> Self {
        Ticket {
            next: AtomicU64::new(0),
            serving: AtomicU64::new(0),
            asleep: Mutex::new(()),
            passed_on: Condvar::new(),
            account: UnsafeCell::new(account),
        }
    }

    fn call(&self, seat: &mut Seat, op: Op) {
        let ticket = self.next.fetch_add(1, SeqCst);
        self.wait(ticket);
        // SAFETY: this thread's ticket is served.
        unsafe { &mut *self.account.get() }.apply(seat, op).unwrap();
        self.serving.store(ticket + 1, SeqCst);
        if self.next.load(SeqCst) != ticket + 1 {
            drop(self.asleep.lock().unwrap());
            self.passed_on.notify_all();
        }
    }
}

/// What a seat asks at its turn so many, and on which of so many accounts.
fn asked(calls: bool, seat: u32, turn: usize, accounts: usize) -> (usize, Op) {
    if !calls {
        return (turn % accounts, Op::Credit { amount: 1, until: None });
    }
    let round = turn / 3;
    let call = round as u64 * 16 + u64::from(seat);
    let plan = Plan { fee: 50, before: 1000, after: Some(400), free: 0 };
    let op = match turn % 3 {
        0 => Op::Reserve { call, plan, wanted: 600, least: 50, at: 0 },
        1 => Op::Settle { call, number: 7, info: TimeInfo::NoSwitch { t: 300 } },
        _ => Op::Return { call },
    };
    (round % accounts, op)
}

struct Chair<S> {
    account: Arc<S>,
    seat: Seat,
}

fn contend<S: Shared>(calls: bool, threads: u32, accounts: usize, each: usize) -> u128 {
    let all: Vec<Arc<S>> = (0..accounts)
        .map(|_| Arc::new(S::new(Account::new(OPENING, LIMIT))))
        .collect();
    let teams: Vec<Vec<Chair<S>>> = (0..threads)
        .map(|number| {
            all.iter()
                .map(|account| Chair { account: account.clone(), seat: Seat::new(number) })
                .collect()
        })
        .collect();
    let start = Instant::now();
    let threads: Vec<_> = teams
        .into_iter()
        .zip(0..)
        .map(|(mut chairs, number)| {
            std::thread::spawn(move || {
                for turn in 0..each {
                    let (at, op) = asked(calls, number, turn, accounts);
                    let chair = &mut chairs[at];
                    chair.account.call(&mut chair.seat, op);
                }
                chairs
            })
        })
        .collect();
    let ends: Vec<_> = threads.into_iter().map(|thread| thread.join().unwrap()).collect();
    let took = start.elapsed().as_nanos();
    black_box(ends);
    took
}

fn main() {
    let words: Vec<String> = std::env::args().skip(1).collect();
    let number = |at: usize| words[at].parse::<usize>().unwrap();
    let calls = words[1] == "calls";
    let (threads, accounts, each) = (number(2) as u32, number(3), number(4));
    let nanoseconds = match words[0].as_str() {
        "mutex" => contend::<Mutex<Account>>(calls, threads, accounts, each),
        "ticket" => contend::<Ticket>(calls, threads, accounts, each),
        form => panic!("no form {form}"),
    };
    println!("{nanoseconds}");
}
