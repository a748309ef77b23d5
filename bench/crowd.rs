//! A thousand firms against `allocd keep`: many connections from one thread, over epoll(7).
//!
//! crowd house FIRMS: a house file of firms F1, F2, .., each with the accounts A1 and A2, to standard output.
//!
//! crowd run PORT FIRMS SPEAKERS CALLS: the house enters CALLS trades, by turns for each firm. Then all firms log on, and so many of them, picked at
//! random call by call, have one call unanswered each: splits of their own trades, all of which the book accepts. It prints the accepted calls a
//! second and the percentiles of their round trips.
//!
//! crowd idle PORT PID FIRMS SECONDS: all firms log on and say nothing. It prints the memory of the process before and with them, and how much
//! of a core it takes for so long.
//!
//! crowd abuse PORT GIVER FIRM RAISES CONNECTIONS: a firm raises its limit with a giver so often, by one lot each, and claims all of it. Once
//! that is done it says so, and on so many connections asks as fast as they take it to have its first raise undone, which the book refuses each
//! time. When standard input ends it prints how often a second it was answered.
//!
//! crowd logon PORT: asks for the house's Logon until one is answered, and prints after how many seconds.

use std::collections::HashMap;
use std::io::{Read, Write};
use std::net::TcpStream;
use std::os::fd::AsRawFd;
use std::sync::atomic::{AtomicUsize, Ordering};
use std::time::{Duration, Instant};
use std::{env, fs, process, thread};

/// How long firms that have logged on are left alone before they call, so that the seconds of their reports are over.
const SETTLED: Duration = Duration::from_millis(2500);
/// How many calls of the house are unanswered at most.
const WINDOW: usize = 256;
/// How the answer to a call begins, behind its length.
const KIND: &[u8] = b"\x0135=P\x01";
/// How many answers the firm had that abuses the server.
static ANSWERS: AtomicUsize = AtomicUsize::new(0);
/// How often a second a process's time is counted: USER_HZ of Linux.
const TICKS: f64 = 100.0;

#[repr(C, packed)]
#[derive(Clone, Copy)]
struct Event {
    events: u32,
    place: u64,
}

extern "C" {
    fn epoll_create1(flags: i32) -> i32;
    fn epoll_ctl(poll: i32, what: i32, file: i32, event: *mut Event) -> i32;
    fn epoll_wait(poll: i32, events: *mut Event, most: i32, milliseconds: i32) -> i32;
}

/// A frame of a body whose fields end with `|`.
fn frame(body: &str, out: &mut Vec<u8>) {
    let start = out.len();
    out.extend_from_slice(format!("8=FIXT.1.1\x019={}\x01", body.len()).as_bytes());
    out.extend(body.bytes().map(|b| if b == b'|' { 1 } else { b }));
    let sum = out[start..].iter().fold(0u8, |s, b| s.wrapping_add(*b));
    out.extend_from_slice(format!("10={sum:03}\x01").as_bytes());
}

/// The value of a field.
fn field<'a>(message: &'a [u8], tag: &str) -> Option<&'a str> {
    let key = format!("\x01{tag}=");
    let at = message.windows(key.len()).position(|w| w == key.as_bytes())? + key.len();
    let end = message[at..].iter().position(|b| *b == 1)?;
    std::str::from_utf8(&message[at..at + end]).ok()
}

/// A session of a firm.
struct Session {
    stream: TcpStream,
    firm: String,
    held: Vec<u8>,
    sent: usize,
    came: usize,
}

impl Session {
    fn open(port: u16, firm: &str) -> std::io::Result<Session> {
        let stream = TcpStream::connect(("127.0.0.1", port))?;
        stream.set_nodelay(true)?;
        stream.set_read_timeout(Some(Duration::from_secs(120)))?;
        let mut session = Session { stream, firm: firm.to_owned(), held: vec![], sent: 0, came: 0 };
        session.send("A", "98=0|108=0|1137=9|");
        Ok(session)
    }

    fn put(&mut self, kind: &str, body: &str, out: &mut Vec<u8>) {
        self.sent += 1;
        let header = format!("35={kind}|49={}|56=HSE|34={}|52=20260302-09:00:00|", self.firm, self.sent);
        frame(&format!("{header}{body}"), out);
    }

    fn send(&mut self, kind: &str, body: &str) {
        let mut out = vec![];
        self.put(kind, body, &mut out);
        self.stream.write_all(&out).expect("a write");
    }

    /// The length of the message at a place, if it is there whole.
    fn whole(&self, at: usize) -> Option<usize> {
        let rest = &self.held[at..];
        let digits = rest.get(13..)?.iter().position(|b| *b == 1)?;
        let body: usize = std::str::from_utf8(&rest[13..13 + digits]).ok()?.parse().ok()?;
        let len = 13 + digits + 1 + body + 7;
        (len <= rest.len()).then_some(len)
    }

    /// The messages that are whole behind one read. Their numbers have to follow one another.
    fn read(&mut self) -> Vec<Vec<u8>> {
        let mut piece = [0; 65536];
        let count = self.stream.read(&mut piece).expect("a read");
        assert!(count > 0, "{} was closed", self.firm);
        self.held.extend_from_slice(&piece[..count]);
        let (mut all, mut at) = (vec![], 0);
        while let Some(len) = self.whole(at) {
            let message = self.held[at..at + len].to_vec();
            self.came += 1;
            assert_eq!(field(&message, "34"), Some(self.came.to_string().as_str()), "{} misses a message", self.firm);
            all.push(message);
            at += len;
        }
        self.held.drain(..at);
        all
    }
}

/// Has the house enter trades for these firms by turns: the entries of each.
fn filled(port: u16, firms: &[String], calls: usize) -> HashMap<String, Vec<u32>> {
    let mut house = Session::open(port, "HSE").expect("a connection of the house");
    let (mut sent, mut answered) = (0, 0);
    let mut entries: HashMap<String, Vec<u32>> = HashMap::new();
    while answered < calls {
        let mut out = vec![];
        while sent < calls && sent - answered < WINDOW {
            let firm = &firms[sent % firms.len()];
            let body = format!("571=T{sent}|55=ESZ6|32=2|552=1|54=1|453=1|448={firm}|447=D|452=4|1=A1|");
            house.put("AE", &body, &mut out);
            sent += 1;
        }
        house.stream.write_all(&out).expect("a write");
        for message in house.read() {
            if let Some(entry) = field(&message, "58").and_then(|text| text.strip_prefix("entry ")) {
                let firm = firms[answered % firms.len()].clone();
                entries.entry(firm).or_default().push(entry.parse().expect("a number"));
                answered += 1;
            }
        }
    }
    house.send("5", "");
    entries
}

/// A firm that calls: the trades that it has left to split, and its call that is unanswered.
struct Caller {
    session: Session,
    trades: Vec<u32>,
    unanswered: Option<Instant>,
}

impl Caller {
    /// Splits its next trade, if it has one and no call is unanswered. Whether it did.
    fn call(&mut self) -> bool {
        if self.unanswered.is_some() {
            return false;
        }
        let Some(trade) = self.trades.pop() else { return false };
        self.unanswered = Some(Instant::now());
        let body = format!("70=S{trade}|71=0|626=23|72={trade}.0|78=2|79=A1|80=1|79=A2|80=1|");
        self.session.send("J", &body);
        true
    }

    /// Reads: the round trips that are over, and how many Logons came.
    fn read(&mut self) -> (Vec<Duration>, usize) {
        let (mut trips, mut logons) = (vec![], 0);
        for message in self.session.read() {
            match field(&message, "35") {
                Some("A") => logons += 1,
                Some("P") => {
                    assert!(field(&message, "793").is_some(), "{} is refused", self.session.firm);
                    trips.push(self.unanswered.take().expect("an answer to no call").elapsed());
                }
                _ => {}
            }
        }
        (trips, logons)
    }
}

/// A random number.
fn random(seed: &mut u64) -> usize {
    *seed ^= *seed << 13;
    *seed ^= *seed >> 7;
    *seed ^= *seed << 17;
    (*seed >> 20) as usize
}

/// The sessions of these firms, watched by a poll under their places.
fn watched(port: u16, firms: &[String], mut entries: HashMap<String, Vec<u32>>) -> (i32, Vec<Caller>) {
    let poll = unsafe { epoll_create1(0) };
    let mut callers = vec![];
    for (place, firm) in firms.iter().enumerate() {
        let session = Session::open(port, firm).expect("a connection");
        let mut event = Event { events: 1, place: place as u64 };
        assert_eq!(unsafe { epoll_ctl(poll, 1, session.stream.as_raw_fd(), &mut event) }, 0);
        callers.push(Caller { session, trades: entries.remove(firm).unwrap_or_default(), unanswered: None });
    }
    (poll, callers)
}

fn run(port: u16, firms: usize, speakers: usize, calls: usize) {
    let names: Vec<String> = (1..=firms).map(|n| format!("F{n}")).collect();
    let entries = filled(port, &names, calls.div_ceil(firms) * firms);
    let began = Instant::now();
    let (poll, mut callers) = watched(port, &names, entries);
    let mut events = vec![Event { events: 0, place: 0 }; 1024];
    let (mut on, mut made, mut free, mut seed) = (0, 0, 0, 88_172_645_463_325_252);
    let mut trips: Vec<Duration> = vec![];
    let mut logged_on: Option<Instant> = None;
    let mut start: Option<Instant> = None;
    while trips.len() < calls {
        let count = unsafe { epoll_wait(poll, events.as_mut_ptr(), 1024, 100) };
        for event in &events[..count.max(0) as usize] {
            let (ended, logons) = callers[event.place as usize].read();
            free += ended.len();
            trips.extend(ended);
            on += logons;
        }
        if on == firms && logged_on.is_none() {
            logged_on = Some(Instant::now());
            println!("{firms} firms logged on in {:.2} s", began.elapsed().as_secs_f64());
        }
        if start.is_none() && logged_on.is_some_and(|at| at.elapsed() > SETTLED) {
            start = Some(Instant::now());
            free = speakers;
        }
        let mut tries = 0;
        while start.is_some() && free > 0 && made < calls && tries < 100_000 {
            tries += 1;
            if callers[random(&mut seed) % firms].call() {
                made += 1;
                free -= 1;
            }
        }
    }
    let took = start.expect("a start").elapsed().as_secs_f64();
    trips.sort();
    let at = |share: f64| trips[((trips.len() - 1) as f64 * share) as usize].as_secs_f64() * 1e3;
    println!(
        "{firms} firms logged on, {speakers} calls unanswered: {:.0} accepted calls a second; p50 {:.1}, p99 {:.1}, at most {:.1} ms",
        calls as f64 / took,
        at(0.5),
        at(0.99),
        at(1.0)
    );
}

/// A field of a process's status, in kB.
fn memory(pid: &str) -> usize {
    let status = fs::read_to_string(format!("/proc/{pid}/status")).expect("a process");
    let line = status.split("VmRSS:").nth(1).expect("its memory");
    line.split_whitespace().next().and_then(|kb| kb.parse().ok()).expect("a number")
}

/// The seconds of a core that a process took.
fn time(pid: &str) -> f64 {
    let stat = fs::read_to_string(format!("/proc/{pid}/stat")).expect("a process");
    let behind = stat.rsplit(')').next().expect("its times");
    let ticks = |n: usize| behind.split_whitespace().nth(n).and_then(|t| t.parse::<f64>().ok()).expect("a number");
    (ticks(11) + ticks(12)) / TICKS
}

fn idle(port: u16, pid: &str, firms: usize, seconds: u64) {
    let before = memory(pid);
    let mut sessions: Vec<Session> =
        (1..=firms).map(|n| Session::open(port, &format!("F{n}")).expect("a connection")).collect();
    for session in &mut sessions {
        assert_eq!(field(&session.read()[0], "35"), Some("A"), "{} has no Logon", session.firm);
    }
    let (used, began) = (time(pid), Instant::now());
    thread::sleep(Duration::from_secs(seconds));
    let share = (time(pid) - used) / began.elapsed().as_secs_f64();
    println!(
        "{firms} silent firms: {:.1} % of a core; {:.1} MB before them, {:.1} MB with them",
        share * 100.0,
        before as f64 / 1024.0,
        memory(pid) as f64 / 1024.0
    );
}

/// Makes a call on a session and reads up to its answer: the number of the entry that it is.
fn entered(session: &mut Session, kind: &str, body: &str) -> u32 {
    session.send(kind, body);
    loop {
        for message in session.read() {
            if field(&message, "35").is_some_and(|kind| kind == "P" || kind == "AR") {
                let entry = field(&message, "793").or(field(&message, "58").and_then(|text| text.strip_prefix("entry ")));
                return entry.and_then(|n| n.parse().ok()).unwrap_or_else(|| panic!("{}", String::from_utf8_lossy(&message)));
            }
        }
    }
}

/// Has a firm raise its limit so often and claim all of it: the number of its first raise.
fn raised(port: u16, giver: &str, firm: &str, raises: usize) -> u32 {
    let mut house = Session::open(port, "HSE").expect("a connection of the house");
    entered(&mut house, "J", &format!("70=G1|71=0|626=90|5001={giver}|5002={firm}|5003=1|5004=0|"));
    let mut taker = Session::open(port, firm).expect("a connection of the firm");
    let first = entered(&mut taker, "J", &format!("70=R0|71=0|626=91|5001={giver}|5004=1|"));
    let (mut sent, mut answered) = (1, 1);
    while answered < raises {
        let mut out = vec![];
        while sent < raises && sent - answered < WINDOW {
            taker.put("J", &format!("70=R{sent}|71=0|626=91|5001={giver}|5004=1|"), &mut out);
            sent += 1;
        }
        taker.stream.write_all(&out).expect("a write");
        answered += taker.read().iter().filter(|it| field(it, "793").is_some() && field(it, "35") == Some("P")).count();
    }
    let trade = format!("571=A1|55=ESZ6|32={raises}|552=1|54=1|453=1|448={giver}|447=D|452=4|1=A1|");
    let trade = entered(&mut house, "AE", &trade);
    let mut other = Session::open(port, giver).expect("a connection of the giver");
    let given = format!("70=S1|71=0|626=17|72={trade}.0|78=1|79=X|80={raises}|539=1|524={firm}|525=D|538=4|");
    let split = entered(&mut other, "J", &given);
    entered(&mut taker, "J", &format!("70=C1|71=0|626=18|72={split}.1|78=1|79=A1|"));
    for session in [&mut other, &mut taker] {
        entered(session, "J", &format!("70=I1|71=6|626=20|72={first}|"));
    }
    first
}

fn cut_off() -> ! {
    eprintln!("crowd: the firm that abuses the server is cut off");
    process::exit(1)
}

/// Asks again and again on a connection to have an entry undone, and counts the answers.
fn asks(mut session: Session, entry: u32) {
    let mut stream = session.stream.try_clone().expect("a second handle");
    thread::spawn(move || {
        let body = format!("70=V1|71=6|626=21|72={entry}|");
        loop {
            let mut out = vec![];
            (0..64).for_each(|_| session.put("J", &body, &mut out));
            session.stream.write_all(&out).unwrap_or_else(|_| cut_off());
        }
    });
    let (mut piece, mut held) = (vec![0; 65536], vec![]);
    loop {
        let count = stream.read(&mut piece).unwrap_or(0);
        if count == 0 {
            cut_off();
        }
        held.extend_from_slice(&piece[..count]);
        let kept = held.len().min(KIND.len() - 1);
        ANSWERS.fetch_add(held.windows(KIND.len()).filter(|it| *it == KIND).count(), Ordering::Relaxed);
        held.drain(..held.len() - kept);
    }
}

fn abuse(port: u16, giver: &str, firm: &str, raises: usize, connections: usize) {
    let first = raised(port, giver, firm, raises);
    thread::sleep(SETTLED);
    for _ in 0..connections {
        let session = Session::open(port, firm).expect("a connection of the firm");
        thread::spawn(move || asks(session, first));
    }
    println!("{firm} asks on {connections} connections");
    let (before, began) = (ANSWERS.load(Ordering::Relaxed), Instant::now());
    std::io::stdin().read_to_end(&mut vec![]).expect("standard input");
    let count = ANSWERS.load(Ordering::Relaxed) - before;
    println!("{firm} was answered {:.0} calls a second", count as f64 / began.elapsed().as_secs_f64());
}

fn logon(port: u16) {
    let began = Instant::now();
    loop {
        if let Ok(mut house) = Session::open(port, "HSE") {
            assert_eq!(field(&house.read()[0], "35"), Some("A"));
            println!("{:.2}", began.elapsed().as_secs_f64());
            return;
        }
        thread::sleep(Duration::from_millis(5));
    }
}

fn house(firms: usize) {
    println!("GIVEUP 1\nHOUSE HSE");
    (1..=firms).for_each(|n| println!("FIRM F{n}"));
    (1..=firms).for_each(|n| println!("ACCOUNT F{n} A1\nACCOUNT F{n} A2"));
    println!("INSTRUMENT ESZ6");
}

fn usage() {
    eprintln!("crowd: the words stand at its head");
    process::exit(2);
}

fn main() {
    let words: Vec<String> = env::args().skip(1).collect();
    let number = |n: usize| words.get(n).and_then(|word| word.parse::<usize>().ok());
    let words: Vec<&str> = words.iter().map(String::as_str).collect();
    match (words.as_slice(), number(1), number(2), number(3), number(4)) {
        (["house", _], Some(firms), ..) => house(firms),
        (["run", ..], Some(port), Some(firms), Some(speakers), Some(calls)) => run(port as u16, firms, speakers, calls),
        (["idle", _, pid, ..], Some(port), _, Some(firms), Some(seconds)) => idle(port as u16, pid, firms, seconds as u64),
        (["abuse", _, giver, firm, ..], Some(port), ..) => match (number(4), number(5)) {
            (Some(raises), Some(connections)) => abuse(port as u16, giver, firm, raises, connections),
            _ => usage(),
        },
        (["logon", _], Some(port), ..) => logon(port as u16),
        _ => usage(),
    }
}
