//! The plant of `changes`: 20,000 alarms, over 64 conditions that follow one input, so that all change in each scan. The tags stand in one text with their
//! ends, an alarm is a byte, and a row of the journal is its number and its codes in 8 bytes. Who orders nothing gets no other state than these three.
use std::io::{BufRead, Write};

const ALARMS: usize = 20000;
const CONDITIONS: usize = 64;
const CODES: [&[u8]; 3] = [b" NORM", b" UNACK", b" RTNUN"];

/// Texts one after another.
struct Texts {
    text: Vec<u8>,
    ends: Vec<u32>,
}

impl Texts {
    fn tags() -> Texts {
        let mut tags = Texts { text: Vec::new(), ends: vec![0] };
        for n in 0..ALARMS {
            write!(tags.text, "{}-PT{n:05}.HI", (b'A' + (n % 26) as u8) as char).unwrap();
            tags.ends.push(tags.text.len() as u32);
        }
        tags
    }

    fn get(&self, n: usize) -> &[u8] {
        &self.text[self.ends[n] as usize..self.ends[n + 1] as usize]
    }
}

/// An alarm's code after a scan.
fn stepped(code: u8, holds: bool) -> u8 {
    match (code, holds) {
        (_, true) => 1,
        (1, false) => 2,
        (code, false) => code,
    }
}

pub fn changes() {
    let mut input = std::io::BufReader::with_capacity(65536, std::io::stdin().lock());
    let mut output = std::fs::File::from(std::os::fd::AsFd::as_fd(&std::io::stdout()).try_clone_to_owned().unwrap());
    let tags = Texts::tags();
    let (mut codes, mut conditions) = (vec![0u8; ALARMS], [false; CONDITIONS]);
    let (mut journal, mut line, mut answer) = (Vec::new(), Vec::new(), Vec::new());
    loop {
        line.clear();
        if input.read_until(b'\n', &mut line).unwrap() == 0 {
            break;
        }
        let words: Vec<&[u8]> = line.trim_ascii_end().split(|b| *b == b' ').collect();
        if let Some(value) = words.get(2).and_then(|word| word.strip_prefix(b"b=")) {
            conditions.fill(value == b"1");
        }
        let moment = words[1];
        answer.clear();
        let mut lines = 0;
        for n in 0..ALARMS {
            let (from, to) = (codes[n], stepped(codes[n], conditions[n % CONDITIONS]));
            if from != to {
                codes[n] = to;
                journal.push((n as u64) << 16 | (from as u64) << 8 | to as u64);
                for part in [b"ALARM ", moment, b" ", tags.get(n), CODES[from as usize], CODES[to as usize], b"\n"] {
                    answer.extend_from_slice(part);
                }
                lines += 1;
            }
        }
        answer.extend_from_slice(b"DONE ");
        answer.extend_from_slice(moment);
        writeln!(answer, " {lines}").unwrap();
        output.write_all(&answer).unwrap();
    }
    std::hint::black_box(journal);
}
