//! Does the work of board_readers.rt.in in plain Rust and under a lock. bench/readers compares both programs.
//!
//! The only argument is `rwlock` or `mutex`, the lock of one map that the writer changes and the readers read. The
//! standard input and the output are as in board_readers.rt.in. There is no cluster. The writer adds a command to a
//! list, copies the list as a show does, and changes the map.

use std::collections::BTreeMap;
use std::hint::black_box;
use std::io;
use std::sync::atomic::{AtomicBool, Ordering};
use std::sync::{Mutex, RwLock};
use std::thread;
use std::time::{Duration, Instant};

const COMMANDS: u32 = 4096;
const KEYS: u32 = 1024;
const LAP: u32 = 512;
const SHOWS: u32 = 128;
const LOOKUPS: u32 = 1_000_000;

type Texts = BTreeMap<String, String>;

/// A map that threads share.
trait Shared: Sync {
    fn look_up(&self, key: &str) -> Option<String>;
    fn set(&self, key: String, text: String);
}

impl Shared for RwLock<Texts> {
    fn look_up(&self, key: &str) -> Option<String> {
        self.read().unwrap().get(key).cloned()
    }

    fn set(&self, key: String, text: String) {
        self.write().unwrap().insert(key, text);
    }
}

impl Shared for Mutex<Texts> {
    fn look_up(&self, key: &str) -> Option<String> {
        self.lock().unwrap().get(key).cloned()
    }

    fn set(&self, key: String, text: String) {
        self.lock().unwrap().insert(key, text);
    }
}

#[derive(Clone)]
struct Command {
    _id: (u32, u32),
    key: String,
    text: String,
}

/// The lookups of a thread. No two seats share a cache line.
#[derive(Default)]
#[repr(align(128))]
struct Seat {
    next: u32,
    lookups: u64,
    found: u64,
}

impl Seat {
    fn look_up<S: Shared>(&mut self, shared: &S, keys: &[String]) {
        let key = &keys[(self.next % KEYS) as usize];
        if shared.look_up(key).is_some() {
            self.found += 1;
        }
        self.next = self.next.wrapping_add(7);
        self.lookups += 1;
    }

    fn look_up_until<S: Shared>(&mut self, shared: &S, keys: &[String], is_done: &AtomicBool) {
        while !is_done.load(Ordering::SeqCst) {
            self.look_up(shared, keys);
        }
    }
}

fn key_of(number: u32) -> String {
    format!("key{}", number % KEYS)
}

fn command(number: u32) -> Command {
    Command { _id: (1, number), key: key_of(number), text: format!("text{number}") }
}

/// Adds a command, and changes the map.
fn show<S: Shared>(shared: &S, list: &mut Vec<Command>, number: u32) {
    let command = command(number);
    list.push(command.clone());
    shared.set(command.key, command.text);
}

/// Adds LAP commands, and copies the list for each of the last SHOWS. Returns the time for these.
fn lap<S: Shared>(shared: &S, list: &mut Vec<Command>, first: u32) -> Duration {
    for number in first..first + LAP - SHOWS {
        show(shared, list, number);
    }
    let start = Instant::now();
    for number in first + LAP - SHOWS..first + LAP {
        show(shared, list, number);
        black_box(list.clone());
    }
    start.elapsed()
}

fn sums(seats: &[Seat]) -> (u64, u64) {
    (seats.iter().map(|seat| seat.lookups).sum(), seats.iter().map(|seat| seat.found).sum())
}

fn measure<S: Shared>(shared: &S, readers: u32) {
    let keys: Vec<String> = (0..KEYS).map(key_of).collect();
    let mut seats: Vec<Seat> = (0..readers).map(|number| Seat { next: number * 131, ..Seat::default() }).collect();
    let is_done = AtomicBool::new(false);
    let mut list = Vec::new();
    let start = Instant::now();
    let laps = thread::scope(|scope| {
        for seat in &mut seats {
            scope.spawn(|| seat.look_up_until(shared, &keys, &is_done));
        }
        let laps: Vec<Duration> = (0..COMMANDS / LAP).map(|number| lap(shared, &mut list, number * LAP)).collect();
        is_done.store(true, Ordering::SeqCst);
        laps
    });
    let took = start.elapsed();
    for lap in laps {
        println!("shows {SHOWS} {}", lap.as_nanos());
    }
    let (before, found) = sums(&seats);
    println!("beside {before} {} {found}", took.as_nanos());
    let start = Instant::now();
    thread::scope(|scope| {
        for seat in &mut seats {
            scope.spawn(|| (0..LOOKUPS).for_each(|_| seat.look_up(shared, &keys)));
        }
    });
    let took = start.elapsed();
    let (after, found) = sums(&seats);
    println!("alone {} {} {found}", after - before, took.as_nanos());
}

fn main() {
    let mut line = String::new();
    io::stdin().read_line(&mut line).unwrap();
    let readers = line.trim().parse().unwrap();
    match std::env::args().nth(1).as_deref() {
        Some("rwlock") => measure(&RwLock::new(Texts::new()), readers),
        Some("mutex") => measure(&Mutex::new(Texts::new()), readers),
        _ => panic!("the argument must be rwlock or mutex"),
    }
}
