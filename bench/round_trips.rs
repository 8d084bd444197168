//! Times programs at the other end of two pipes: round_trips each|all TURNS INPUT WANTED LOG -- PROGRAM [WORD..] ..
//!
//! WANTED is what each of them has to print to INPUT. `each`: every row is sent once the answer to the one before it
//! has come; of all round trips the median and the 99th percentile are printed. `all`: the rows are sent without
//! waiting; the least time of a turn is printed, and the rows a second. The programs take turns, and LOG is removed
//! before each of them is started. Ratios are to the last program, which is the plain one. With `silent` as a word a
//! program's output isn't compared.
use std::collections::HashMap;
use std::fs;
use std::io::{Read, Write};
use std::process::{Child, Command, Stdio};
use std::time::{Duration, Instant};

const HEADER: &str = "moment,number,call,from,what,x1,x2,x3,x4\n";

struct Talk {
    head: String,
    rows: Vec<String>,
    /// What is printed of each row.
    answers: Vec<String>,
    wanted: String,
}

impl Talk {
    fn read(input: &str, wanted: &str) -> Talk {
        let (input, wanted) = (fs::read_to_string(input).unwrap(), fs::read_to_string(wanted).unwrap());
        let start = input.find(HEADER).unwrap() + HEADER.len();
        let rows: Vec<String> = input[start..].split_inclusive('\n').map(String::from).collect();
        let mut answers: HashMap<usize, String> = HashMap::new();
        for line in wanted[HEADER.len()..].split_inclusive('\n').take_while(|line| *line != "%%\n") {
            let number = line.split(',').nth(1).unwrap().parse().unwrap();
            answers.entry(number).or_default().push_str(line);
        }
        let answers = (0..rows.len()).map(|number| answers.remove(&number).unwrap()).collect();
        Talk { head: input[..start].to_string(), rows, answers, wanted }
    }
}

fn start(words: &[String], log: &str) -> Child {
    let _ = fs::remove_file(log);
    Command::new(&words[0]).args(&words[1..]).stdin(Stdio::piped()).stdout(Stdio::piped()).spawn().unwrap()
}

fn hear(child: &mut Child, wanted: &str) {
    let mut text = vec![0; wanted.len()];
    child.stdout.as_mut().unwrap().read_exact(&mut text).unwrap();
    assert!(text == wanted.as_bytes(), "{wanted} in place of {}", String::from_utf8_lossy(&text));
}

/// The times of the round trips of all rows.
fn each(talk: &Talk, words: &[String], log: &str, times: &mut Vec<Duration>) {
    let mut child = start(words, log);
    child.stdin.as_mut().unwrap().write_all(talk.head.as_bytes()).unwrap();
    hear(&mut child, HEADER);
    for (row, answer) in talk.rows.iter().zip(&talk.answers) {
        let begun = Instant::now();
        child.stdin.as_mut().unwrap().write_all(row.as_bytes()).unwrap();
        hear(&mut child, answer);
        times.push(begun.elapsed());
    }
    drop(child.stdin.take());
    assert!(child.wait_with_output().unwrap().status.success());
}

/// The time that all rows take, from the header on.
fn all(talk: &Talk, words: &[String], log: &str) -> Duration {
    let mut child = start(words, log);
    child.stdin.as_mut().unwrap().write_all(talk.head.as_bytes()).unwrap();
    hear(&mut child, HEADER);
    let (mut input, rows) = (child.stdin.take().unwrap(), talk.rows.concat());
    let begun = Instant::now();
    let output = std::thread::scope(|scope| {
        scope.spawn(move || input.write_all(rows.as_bytes()).unwrap());
        let mut output = Vec::new();
        child.stdout.take().unwrap().read_to_end(&mut output).unwrap();
        output
    });
    let time = begun.elapsed();
    assert!(child.wait().unwrap().success());
    assert!(words.iter().any(|word| word == "silent") || output == talk.wanted.as_bytes()[HEADER.len()..]);
    time
}

fn micros(time: Duration) -> f64 {
    time.as_secs_f64() * 1e6
}

fn main() {
    let words: Vec<String> = std::env::args().skip(1).collect();
    let mut programs = words.split(|word| word == "--");
    let [how, turns, input, wanted, log] = programs.next().unwrap() else { panic!("no words") };
    let (talk, turns, programs) = (Talk::read(input, wanted), turns.parse().unwrap(), programs.collect::<Vec<_>>());
    let mut times = vec![Vec::new(); programs.len()];
    for _ in 0..turns {
        for (program, times) in programs.iter().zip(&mut times) {
            match how.as_str() {
                "each" => each(&talk, program, log, times),
                _ => times.push(all(&talk, program, log)),
            }
        }
    }
    times.iter_mut().for_each(|times| times.sort());
    let at = |times: &[Duration], part: usize| micros(times[times.len() * part / 100]);
    let plain = times.last().unwrap();
    for (program, times) in programs.iter().zip(&times) {
        let name = program.join(" ").replace(log.as_str(), "LOG");
        let name = name.rsplit_once('/').map_or(name.as_str(), |(_, name)| name);
        if how == "each" {
            let [(middle, half), (late, most)] = [50, 99].map(|it| (at(times, it), at(times, it) / at(plain, it)));
            println!("  {name}: median {middle:.1} µs ({half:.2}), 99th percentile {late:.1} µs ({most:.2})");
        } else {
            let (least, part) = (at(times, 0), at(plain, 0) / at(times, 0));
            let rate = talk.rows.len() as f64 / least * 1e6;
            println!("  {name}: {:.1} ms, {rate:.0} rows a second, {part:.2} of the last one's", least / 1e3);
        }
    }
}
