//! `serve --lines` without proofs, as a baseline: plain_serve [LOG [silent]] < INPUT
//!
//! All whole lines that are in the buffer are logged and synced together, then answered in order, and printed by one
//! write. It begins its log anew. It takes an input whose tariff, setup and messages are right, but for numbers and
//! moments, which it judges. With `silent` it only logs: what its syncs allow.
mod plain_call;
mod plain_service;

use plain_service::{Message, Operation, Service};
use std::fmt::Write as _;
use std::fs::File;
use std::io::{self, BufRead, BufReader, Read, Write};

/// The most bytes of a line.
const MAX_LINE: usize = 4096;

/// What a row says: its moment, its number, its call and its message.
fn read_row<'a>(fields: &[&'a str]) -> Result<(u64, Option<u64>, u64, Message<'a>), &'static str> {
    let [at, number, call, from, what, x1, x2, x3, x4] = fields else { return Err("Csv") };
    let read = |field: &str| field.parse::<u64>().map_err(|_| "Number");
    let message = match (*from, *what, *x1) {
        ("operator", "Recharge", account) => Message::Recharge { account: read(account)? as u32, amount: read(x2)? },
        ("switch", "InitialDP", calling) => Message::InitialDp { calling, called: x2 },
        ("switch", "EventReportBCSM", "answer") => Message::Answered,
        ("switch", "EventReportBCSM", _) => Message::Event { waits: *x3 == "interrupted" },
        ("switch", "ApplyChargingReport", state) => {
            let interval = if x4.is_empty() { None } else { Some(read(x4)?) };
            Message::Report { active: state == "active", switched: *x2 == "s", time: read(x3)?, interval }
        }
        ("switch", "Ended", _) => Message::Ended,
        _ => return Err("What"),
    };
    let number = if number.is_empty() { None } else { Some(read(number)?) };
    Ok((read(at)?, number, if call.is_empty() { 0 } else { read(call)? }, message))
}

/// What has been heard so far.
#[derive(Default)]
struct Heard {
    lines: u64,
    messages: u64,
    last: u64,
}

impl Heard {
    /// The message of a line that may be the next one.
    fn judge<'a>(&self, fields: &[&'a str]) -> Result<(u64, u64, Message<'a>), &'static str> {
        let (at, number, call, message) = read_row(fields)?;
        match number {
            Some(number) if number < self.messages => Err("Repeated"),
            Some(number) if number > self.messages => Err("Order"),
            _ if at < self.last => Err("Order"),
            _ => Ok((at, call, message)),
        }
    }

    /// Adds the answer to a line.
    fn answer(&mut self, service: &mut Service, line: &str, text: &mut String) {
        self.lines += 1;
        let mut fields = [""; 10];
        let mut count = 0;
        for field in line.trim_end_matches(['\r', '\n']).split(',').take(10) {
            fields[count] = field;
            count += 1;
        }
        let (at, call, message) = match self.judge(&fields[..count]) {
            Ok(found) => found,
            Err(kind) => {
                writeln!(text, ",,,service,fault,{kind},{},,", self.lines).unwrap();
                return;
            }
        };
        let [_, _, key, from, what, x1, x2, x3, x4, _] = fields;
        let number = self.messages;
        writeln!(text, "{at},{number},{key},{from},{what},{x1},{x2},{x3},{x4}").unwrap();
        let mut say = |said: &str| writeln!(text, "{at},{number},{key},service,{said}").unwrap();
        let has_place = service.hear(at, call, message, &mut |operation| match operation {
            Operation::Arm => say("RequestReportBCSMEvent,,,,"),
            Operation::Charge { period, switch, last } => {
                let switch = switch.map_or(String::new(), |seconds| seconds.to_string());
                say(&format!("ApplyCharging,{period},{switch},{},", if last { "release" } else { "" }));
            }
            Operation::GoOn => say("Continue,,,,"),
            Operation::Release { cause } => say(&format!("ReleaseCall,{cause},,,")),
        });
        if !has_place {
            say("stray,,,,");
        }
        self.messages += 1;
        self.last = at;
    }
}

/// Reads a section of an input, up to a line `%%`.
fn read_section(input: &mut impl BufRead, head: &mut String) -> io::Result<String> {
    let start = head.len();
    loop {
        let end = head.len();
        input.read_line(head)?;
        if &head[end..] == "%%\n" || end == head.len() {
            return Ok(head[start..end].to_string());
        }
    }
}

/// Takes all whole lines that are there, but waits for one.
fn take_lines(input: &mut BufReader<impl Read>, lines: &mut String) -> io::Result<bool> {
    lines.clear();
    input.read_line(lines)?;
    while input.buffer().contains(&b'\n') {
        input.read_line(lines)?;
    }
    Ok(!lines.is_empty())
}

fn main() -> io::Result<()> {
    let mut words = std::env::args().skip(1);
    let (path, silent) = (words.next(), words.next().is_some());
    let (mut input, mut output) = (BufReader::new(io::stdin()), io::stdout().lock());
    let mut head = String::from("log,1,600,50,50\n");
    let (tariff, setup) = (read_section(&mut input, &mut head)?, read_section(&mut input, &mut head)?);
    let start = head.len();
    input.read_line(&mut head)?;
    let mut log = path.map(File::create).transpose()?;
    if let Some(log) = &mut log {
        log.write_all(head.as_bytes())?;
        log.sync_all()?;
    }
    output.write_all(&head.as_bytes()[start..])?;
    output.flush()?;
    let mut service = Service::new(&tariff, &setup);
    let mut heard = Heard { lines: 1, ..Heard::default() };
    let (mut lines, mut text) = (String::new(), String::new());
    while take_lines(&mut input, &mut lines)? {
        if let Some(log) = &mut log {
            log.write_all(lines.as_bytes())?;
            log.sync_data()?;
        }
        if silent {
            continue;
        }
        text.clear();
        for line in lines.split_inclusive('\n').filter(|line| line.len() <= MAX_LINE) {
            heard.answer(&mut service, line, &mut text);
        }
        output.write_all(text.as_bytes())?;
        output.flush()?;
    }
    write!(output, "%%\n{}", if silent { String::new() } else { service.lines() })
}
