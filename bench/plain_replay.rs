//! `replay` without proofs, as a baseline: fields are split at commas, and a row is answered as it
//! is read. It takes the opening as its only word, and a table of ops without x8 and x9.
mod plain_call;

use plain_call::{Call, DAY, MAX_MONEY};
use std::collections::HashMap;
use std::fmt::Write as _;
use std::io::{Read, Write};

struct Account {
    funds: u64,
    available: u64,
    last_moment: Option<u64>,
    calls: HashMap<u64, Call>,
}

impl Account {
    fn open_call(&mut self, key: u64) -> Result<&mut Call, &'static str> {
        self.calls.get_mut(&key).filter(|call| call.open).ok_or("NotOpen")
    }

    /// Adds the line of a row, or gives the fault of its operation.
    fn answer(&mut self, row: &[&str], text: &mut String) -> Result<(), &'static str> {
        let number = |place: usize| row[place].parse::<u64>().unwrap();
        let maybe = |place: usize| if row[place].is_empty() { None } else { Some(number(place)) };
        if row[1] == "credit" {
            let amount = number(3);
            if amount == 0 || amount > MAX_MONEY {
                return Err("OutOfRange");
            }
            let word = if self.funds + amount > MAX_MONEY {
                "over"
            } else {
                self.funds += amount;
                self.available += amount;
                self.last_moment = maybe(4).or(self.last_moment);
                "credited"
            };
            writeln!(text, "{word} available {}", self.available).unwrap();
            return Ok(());
        }
        let key = number(2);
        match row[1] {
            "reserve" => {
                let (wanted, least) = (number(6), number(7));
                if wanted == 0 || wanted > DAY || least > DAY {
                    return Err("OutOfRange");
                }
                let late = self.last_moment.is_some_and(|last| maybe(9).unwrap_or(0) > last);
                let new = Call::new(number(3), number(4), maybe(5), maybe(8).unwrap_or(0));
                let mut call = self.calls.get(&key).copied().unwrap_or(new);
                if !call.open {
                    return Err("CallUsed");
                }
                match call.reserve(wanted, least, late, &mut self.available) {
                    Some(units) => {
                        self.calls.insert(key, call);
                        let word = if units < wanted { "last" } else { "more" };
                        writeln!(text, "granted {units} {word} available {}", self.available).unwrap();
                    }
                    None => writeln!(text, "denied available {}", self.available).unwrap(),
                }
            }
            "settle" => {
                let interval = maybe(6);
                let call = self.open_call(key)?;
                let times = call.read(row[4] == "s", number(5), interval);
                let word = if call.settle(times) { "settled" } else { "forfeit" };
                let paid = call.paid();
                writeln!(text, "{word} paid {paid} available {}", self.available).unwrap();
            }
            _ => {
                let call = self.open_call(key)?;
                call.open = false;
                let (held, paid) = (call.top, call.paid());
                self.available += held - paid;
                writeln!(text, "returned paid {paid} available {}", self.available).unwrap();
            }
        }
        Ok(())
    }
}

fn main() {
    let opening = std::env::args().nth(1).unwrap().parse().unwrap();
    let mut input = String::new();
    std::io::stdin().read_to_string(&mut input).unwrap();
    let mut account = Account { funds: opening, available: opening, last_moment: None, calls: HashMap::new() };
    let mut text = String::new();
    for line in input.lines().skip(1) {
        let mut row = [""; 10];
        for (place, field) in line.split(',').enumerate() {
            row[place] = field;
        }
        if let Err(fault) = account.answer(&row, &mut text) {
            writeln!(text, "refused {fault}").unwrap();
        }
    }
    std::io::stdout().write_all(text.as_bytes()).unwrap();
}
