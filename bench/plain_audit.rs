//! `audit` without proofs, as a baseline: fields are split at commas, and an entry is judged as it
//! is read. It reads books of versions 1 to 3: with columns x6 and x7, with x6 alone, and without both.
mod plain_call;

use plain_call::{Call, MAX_MONEY};
use std::collections::{BTreeMap, HashMap};
use std::io::{Read, Write};

/// Where the free units of a reserve are, and its moment. The reply is behind them.
const X6: usize = 9;
const X7: usize = 10;

struct Account {
    funds: u64,
    available: u64,
    last_moment: Option<u64>,
    calls: HashMap<u64, Call>,
    legal: bool,
}

/// What an entry should say: its reply, and up to two numbers and a word before what is available.
type Reply = (&'static str, Option<u64>, &'static str);

impl Account {
    fn answer(&mut self, row: &[&str]) -> Option<Reply> {
        let number = |place: usize| row[place].parse::<u64>().unwrap();
        let maybe = |place: usize| if row[place].is_empty() { None } else { Some(number(place)) };
        if row[2] == "credit" {
            let amount = number(4);
            if amount == 0 {
                return None;
            }
            if self.funds + amount > MAX_MONEY {
                return Some(("over", None, ""));
            }
            self.funds += amount;
            self.available += amount;
            self.last_moment = maybe(5).or(self.last_moment);
            return Some(("credited", None, ""));
        }
        let key = number(3);
        match row[2] {
            "reserve" => {
                let (wanted, least) = (number(7), number(8));
                if wanted == 0 {
                    return None;
                }
                let late = self.last_moment.is_some_and(|last| maybe(X7).unwrap_or(0) > last);
                let new = Call::new(number(4), number(5), maybe(6), maybe(X6).unwrap_or(0));
                let mut call = self.calls.get(&key).copied().unwrap_or(new);
                if !call.open {
                    return None;
                }
                let Some(units) = call.reserve(wanted, least, late, &mut self.available) else {
                    return Some(("denied", None, ""));
                };
                self.calls.insert(key, call);
                Some(("granted", Some(units), if units < wanted { "last" } else { "more" }))
            }
            "settle" => {
                let call = self.calls.get_mut(&key).filter(|call| call.open)?;
                let times = call.read(row[5] == "s", number(6), maybe(7));
                if call.settle(times) {
                    Some(("settled", Some(call.paid()), ""))
                } else {
                    Some(("forfeit", Some(call.top), ""))
                }
            }
            _ => {
                let call = self.calls.get_mut(&key).filter(|call| call.open)?;
                call.open = false;
                self.available += call.top - call.paid();
                Some(("returned", Some(call.paid()), ""))
            }
        }
    }

    fn hear(&mut self, row: &[&str]) {
        if !self.legal {
            return;
        }
        let said = self.answer(row);
        let number = |text: &str| text.parse::<u64>().ok();
        let told = said.is_some_and(|(word, paid, last)| row[11] == word && number(row[12]) == paid && row[13] == last);
        self.legal = told && number(row[14]) == Some(self.available);
    }
}

fn main() {
    let mut input = String::new();
    std::io::stdin().read_to_string(&mut input).unwrap();
    let mut accounts: BTreeMap<u32, Account> = BTreeMap::new();
    let mut lines = input.lines();
    let header = lines.next().unwrap_or("");
    let (x6, x7) = (header.contains(",x6,"), header.contains(",x7,"));
    for line in lines {
        let mut row = [""; 15];
        for (place, field) in line.split(',').enumerate() {
            let left_out = usize::from(place >= X6 && !x6) + usize::from(place >= X6 + usize::from(x6) && !x7);
            row[place + left_out] = field;
        }
        let number: u32 = row[0].parse().unwrap();
        if row[2] == "opening" {
            let funds = row[4].parse().unwrap();
            let last_moment = row[5].parse().ok();
            let account = Account { funds, available: funds, last_moment, calls: HashMap::new(), legal: true };
            accounts.insert(number, account);
        } else {
            accounts.get_mut(&number).unwrap().hear(&row);
        }
    }
    let mut text = String::new();
    for (number, account) in &accounts {
        text += &format!("account {number} {}\n", if account.legal { "yes" } else { "no" });
    }
    std::io::stdout().write_all(text.as_bytes()).unwrap();
}
