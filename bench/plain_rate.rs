//! `rate` without proofs, over the crate `csv`, as a baseline: the same rows for the columns
//! `called`, `answer`, `time` and `paid`.
use csv::{ByteRecord, ReaderBuilder, WriterBuilder};
use std::collections::HashMap;
use std::io::{self, BufRead, BufReader, BufWriter};

const DAY: u64 = 864_000;
const MAX_MOMENT: u64 = 1_000_000_000_000;
const MAX_MONEY: u64 = 1_000_000_000_000_000;
const MAX_ROW: usize = 65_536;

struct Band {
    start: u64,
    fee: u64,
    rate: u64,
    free: u64,
}

type Tariff = HashMap<Vec<u8>, Vec<Band>>;

/// Reads the tariff, up to the line `%%`.
fn read_tariff(input: &mut impl BufRead) -> io::Result<Tariff> {
    let (mut tariff, mut line) = (Tariff::new(), String::new());
    input.read_line(&mut line)?;
    loop {
        line.clear();
        input.read_line(&mut line)?;
        let row = line.trim_end();
        if row == "%%" {
            break;
        }
        let fields: Vec<&str> = row.split(',').collect();
        let (hours, minutes) = fields[1].split_once(':').unwrap();
        tariff.entry(fields[0].into()).or_default().push(Band {
            start: (hours.parse::<u64>().unwrap() * 60 + minutes.parse::<u64>().unwrap()) * 600,
            fee: fields[2].parse().unwrap(),
            rate: fields[3].parse().unwrap(),
            free: fields.get(4).map_or(0, |free| free.parse().unwrap()),
        });
    }
    tariff.values_mut().for_each(|bands| bands.sort_by_key(|band| band.start));
    Ok(tariff)
}

fn number(field: &[u8], most: u64) -> Result<u64, &'static str> {
    if field.is_empty() || field.len() > 20 {
        return Err("Number");
    }
    let mut value = 0u64;
    for byte in field {
        let digit = byte.wrapping_sub(b'0');
        if digit > 9 {
            return Err("Number");
        }
        value = value.checked_mul(10).and_then(|it| it.checked_add(u64::from(digit))).ok_or("Number")?;
    }
    if value > most { Err("Number") } else { Ok(value) }
}

fn optional(field: &[u8], most: u64) -> Result<Option<u64>, &'static str> {
    if field.is_empty() { Ok(None) } else { number(field, most).map(Some) }
}

struct Rated<'a> {
    prefix: &'a [u8],
    before: u64,
    after: u64,
    price: u64,
    paid: Option<u64>,
}

fn price(band: &Band, second: Option<u64>, before: u64, after: u64) -> u64 {
    if before + after == 0 {
        return 0;
    }
    let left = band.free.saturating_sub(before);
    let cost = before.saturating_sub(band.free) * band.rate + after.saturating_sub(left) * second.unwrap_or(0);
    band.fee + cost.div_ceil(600)
}

fn rated<'a>(row: &'a ByteRecord, width: usize, places: [usize; 4], tariff: &Tariff) -> Result<Rated<'a>, &'static str> {
    if row.as_slice().len() + row.len() > MAX_ROW {
        return Err("TooLong");
    }
    if row.len() != width {
        return Err("Csv");
    }
    let called = &row[places[0]];
    if called.is_empty() || called.len() > 15 || !called.iter().all(u8::is_ascii_digit) {
        return Err("Number");
    }
    let at = optional(&row[places[1]], MAX_MOMENT)?;
    let time = if at.is_some() { number(&row[places[2]], DAY)? } else { 0 };
    let paid = optional(&row[places[3]], MAX_MONEY)?;
    let Some(at) = at else {
        return Ok(Rated { prefix: b"", before: 0, after: 0, price: 0, paid });
    };
    let found = (0..=called.len()).rev().find_map(|len| Some((len, tariff.get(&called[..len])?)));
    let (len, bands) = found.ok_or("noroute")?;
    let now = at % DAY;
    let counts = bands.iter().rposition(|band| band.start <= now).unwrap();
    let (mut before, mut second) = (time, None);
    if bands.len() > 1 {
        let next = &bands[(counts + 1) % bands.len()];
        let wait = if next.start > now { next.start - now } else { next.start + DAY - now };
        (before, second) = (time.min(wait), Some(next.rate));
    }
    let after = time - before;
    Ok(Rated { prefix: &called[..len], before, after, price: price(&bands[counts], second, before, after), paid })
}

fn main() -> Result<(), Box<dyn std::error::Error>> {
    let mut input = BufReader::with_capacity(65_536, io::stdin().lock());
    let tariff = read_tariff(&mut input)?;
    let mut rows = ReaderBuilder::new().has_headers(false).flexible(true).from_reader(input);
    let mut writer = WriterBuilder::new().flexible(true).from_writer(BufWriter::with_capacity(65_536, io::stdout().lock()));
    let mut row = ByteRecord::new();
    rows.read_byte_record(&mut row)?;
    let width = row.len();
    let places = ["called", "answer", "time", "paid"].map(|name| row.iter().position(|field| field == name.as_bytes()).unwrap());
    ["prefix", "before", "after", "price", "difference", "fault"].iter().for_each(|name| row.push_field(name.as_bytes()));
    writer.write_byte_record(&row)?;
    let (mut numbers, mut differs) = (itoa::Buffer::new(), false);
    while rows.read_byte_record(&mut row)? {
        for field in &row {
            writer.write_field(field)?;
        }
        match rated(&row, width, places, &tariff) {
            Ok(it) => {
                writer.write_field(it.prefix)?;
                for number in [it.before, it.after, it.price] {
                    writer.write_field(numbers.format(number))?;
                }
                let difference = it.paid.map(|paid| it.price as i64 - paid as i64);
                differs |= difference.is_some_and(|it| it != 0);
                writer.write_field(difference.map_or("", |it| numbers.format(it)))?;
                writer.write_field("")?;
            }
            Err(kind) => {
                differs = true;
                ["", "", "", "", "", kind].iter().try_for_each(|field| writer.write_field(field))?;
            }
        }
        writer.write_record(None::<&[u8]>)?;
    }
    writer.flush()?;
    drop(writer);
    std::process::exit(if differs { 3 } else { 0 })
}
