//! What bench/steps measures against: the least that the steps of gets and puts between one library and one brick need, in
//! plain Rust and with no proofs. Its letters go as frames from outboxes to links, a map of the first letters' numbers
//! picks the next event, the brick has a map of pairs, and a journal is kept. It reads no script, refuses nothing and
//! prints no transcript: it is a measure of the machine, not the table over again.
//!
//! rustc --edition 2021 -O yardstick.rs && ./yardstick CALLS      prints: calls, steps, seconds, calls/s, steps/s
use std::collections::{BTreeMap, VecDeque};

const GET: u8 = 1;
const PREPARE: u8 = 2;
const COMMIT: u8 = 3;
const GOT: u8 = 7;
const VOTE: u8 = 8;
const APPLIED: u8 = 9;

/// The library's place, and the brick's.
const LIBRARY: usize = 0;

struct Letter {
    tag: u8,
    number: u64,
    key: u64,
    value: Vec<u8>,
}

fn encode(letter: &Letter) -> Vec<u8> {
    let mut frame = Vec::with_capacity(51 + letter.value.len());
    frame.extend_from_slice(&(45 + letter.value.len() as u32).to_be_bytes());
    frame.extend_from_slice(&[2, letter.tag, 64]);
    frame.extend_from_slice(&letter.number.to_be_bytes());
    frame.extend_from_slice(&[0; 5]);
    frame.extend_from_slice(&letter.key.to_be_bytes());
    frame.extend_from_slice(&[0; 21]);
    frame.extend_from_slice(&(letter.value.len() as u16).to_be_bytes());
    frame.extend_from_slice(&letter.value);
    frame
}

fn decode(frame: &[u8]) -> Letter {
    let length = u32::from_be_bytes(frame[0..4].try_into().unwrap()) as usize;
    assert!(frame[4] == 2 && frame.len() >= length);
    Letter {
        tag: frame[5],
        number: u64::from_be_bytes(frame[7..15].try_into().unwrap()),
        key: u64::from_be_bytes(frame[20..28].try_into().unwrap()),
        value: frame[51..].to_vec(),
    }
}

/// Both nodes, by their places, with their outboxes and links, the next events by their letters' numbers (whether it is a
/// letter to be posted, and whose), and what was done.
#[derive(Default)]
struct Machine {
    outboxes: [VecDeque<(u64, Letter)>; 2],
    links: [VecDeque<(u64, Vec<u8>)>; 2],
    events: BTreeMap<u64, (bool, usize)>,
    pairs: BTreeMap<u64, Vec<u8>>,
    pending: Option<Letter>,
    letters: u64,
    steps: u64,
    sum: u64,
    journal: Vec<(u8, u64)>,
}

impl Machine {
    fn note(&mut self, kind: u8, number: u64) {
        self.steps += 1;
        self.journal.push((kind, number));
    }

    fn send(&mut self, from: usize, tag: u8, number: u64, key: u64, value: Vec<u8>) {
        let letter = Letter { tag, number, key, value };
        self.outboxes[from].push_back((self.letters, letter));
        self.events.insert(self.letters, (true, from));
        self.letters += 1;
    }

    fn call(&mut self, call: u64) {
        let key = call * 7 % 1000;
        self.note(0, key);
        let tag = if call % 4 == 2 { GET } else { PREPARE };
        self.send(LIBRARY, tag, call, key, vec![0xaa; 4]);
    }

    fn post(&mut self, from: usize) {
        let (number, letter) = self.outboxes[from].pop_front().unwrap();
        self.links[from].push_back((number, encode(&letter)));
        self.events.insert(number, (false, from));
    }

    fn handle(&mut self, from: usize) {
        let (_, frame) = self.links[from].pop_front().unwrap();
        let letter = decode(&frame);
        let (to, number) = (1 - from, letter.number);
        match letter.tag {
            GET => {
                let value = self.pairs.get(&letter.key).cloned().unwrap_or_default();
                self.send(to, GOT, number, 0, value);
            }
            PREPARE => {
                self.pending = Some(letter);
                self.send(to, VOTE, number, 0, Vec::new());
            }
            VOTE => self.send(to, COMMIT, number, 0, Vec::new()),
            COMMIT => {
                let update = self.pending.take().unwrap();
                self.pairs.insert(update.key, update.value);
                self.send(to, APPLIED, number, 0, Vec::new());
            }
            _ => self.sum += letter.value.len() as u64 + 1,
        }
    }

    /// Makes events until none is left.
    fn quiet(&mut self) {
        while let Some((number, (post, from))) = self.events.pop_first() {
            self.note(1 + post as u8, number);
            if post {
                self.post(from);
            } else {
                self.handle(from);
            }
        }
    }
}

fn main() {
    let calls: u64 = std::env::args().nth(1).and_then(|word| word.parse().ok()).unwrap_or(10_000);
    let start = std::time::Instant::now();
    let mut machine = Machine::default();
    for call in 0..calls {
        machine.call(call);
        machine.quiet();
    }
    let seconds = start.elapsed().as_secs_f64();
    let (steps, sum, kept) = (machine.steps, machine.sum, machine.journal.len());
    println!(
        "calls {calls} steps {steps} seconds {seconds:.4} calls/s {:.0} steps/s {:.0} (check {sum} {kept})",
        calls as f64 / seconds,
        steps as f64 / seconds
    );
}
