//! A load for `allocd serve`: connections of the house, each of which enters trades for the firm AAA and checks every answer.
//!
//! load PORT calls CONNECTIONS CALLS WINDOW [NAME]: each connection makes CALLS calls, with at most WINDOW of them unanswered (1: one at a time). Of ten calls
//! seven are new trades, two are repeats of the newest trade of the connection, and one is a trade for an account that AAA hasn't. So each
//! answer is known but for the numbers of the entries, which have to rise along a connection, and to be 1, 2, 3, .. over all of them, each
//! once. It prints the round trips a second and their percentiles, and the accepted calls. With a NAME the connections are those of NAME0, NAME1,
//! and so on, for a server that has one connection for a name.
//!
//! A connection that fails, or hears nothing for a minute, ends all with status 1.
//!
//! load PORT turns AT_ONCE CONNECTIONS CALLS: so many connections in turn, so many of them at once, each with its calls one at a time.
//!
//! load PORT behind ENTRIES: the house fills a book with trades for AAA; then AAA logs on and says nothing, and while its reports come the house
//! makes calls that are refused, one at a time. It prints how long the reports took, and the house's round trips alone and beside them.
//!
//! load PORT beside ENTRIES: the house fills a book with trades for AAA, of which AAA has had its reports. It prints the round trips of a call that
//! is refused: of CCC in the empty book, its first in the full one and the later ones, and those of AAA alone and beside CCC's. CCC's first
//! reading goes over the whole book under the lock, and nothing else is as long there: so the longest round trip of AAA beside it tells for how
//! long the lock was held, and so does that of CCC's first call.

use std::collections::VecDeque;
use std::io::{Read, Write};
use std::net::TcpStream;
use std::sync::atomic::{AtomicBool, AtomicUsize, Ordering};
use std::sync::{Arc, Barrier, Condvar, Mutex};
use std::time::{Duration, Instant};
use std::{env, process, thread};

const SOH: u8 = 1;
const PATIENCE: Duration = Duration::from_secs(60);

/// A frame of a body whose fields end with `|`.
fn frame(body: &str, out: &mut Vec<u8>) {
    let start = out.len();
    out.extend_from_slice(format!("8=FIXT.1.1\x019={}\x01", body.len()).as_bytes());
    out.extend(body.bytes().map(|b| if b == b'|' { SOH } else { b }));
    let sum = out[start..].iter().fold(0u8, |s, b| s.wrapping_add(*b));
    out.extend_from_slice(format!("10={sum:03}\x01").as_bytes());
}

fn header(firm: &str, kind: &str, number: usize) -> String {
    format!("35={kind}|49={firm}|56=HSE|34={number}|52=20260302-09:00:00|")
}

/// Bytes that came, cut into frames.
struct Frames {
    stream: TcpStream,
    held: Vec<u8>,
    at: usize,
}

/// The fields of a message, tag and value.
type Fields = Vec<(u32, String)>;

fn value<'a>(fields: &'a Fields, tag: u32) -> &'a str {
    fields
        .iter()
        .find(|(t, _)| *t == tag)
        .map_or("", |(_, v)| v.as_str())
}

impl Frames {
    /// The length of the frame that begins at `at`, if it is there whole.
    fn whole(&self) -> Option<usize> {
        let held = &self.held[self.at..];
        let digits = held.get(13..)?.iter().position(|b| *b == SOH)?;
        let length: usize = std::str::from_utf8(&held[13..13 + digits])
            .ok()?
            .parse()
            .ok()?;
        let all = 13 + digits + 1 + length + 7;
        (held.len() >= all).then_some(all)
    }

    /// The next message.
    fn next(&mut self) -> Result<Fields, String> {
        loop {
            if let Some(length) = self.whole() {
                let text =
                    String::from_utf8_lossy(&self.held[self.at..self.at + length]).into_owned();
                self.at += length;
                return text
                    .split_terminator('\x01')
                    .map(|field| {
                        let (tag, value) = field.split_once('=').ok_or("a field without =")?;
                        Ok((tag.parse().map_err(|_| "a tag")?, value.to_owned()))
                    })
                    .collect();
            }
            self.held.drain(..self.at);
            self.at = 0;
            let mut piece = [0; 65_536];
            match self.stream.read(&mut piece) {
                Ok(0) => return Err("closed".to_owned()),
                Ok(n) => self.held.extend_from_slice(&piece[..n]),
                Err(e) => return Err(e.to_string()),
            }
        }
    }
}

/// What a call must be answered with.
#[derive(Clone, Copy, PartialEq)]
enum Kind {
    New,
    Again,
    Refused,
}

struct Call {
    kind: Kind,
    id: String,
    sent: Instant,
}

/// The calls without an answer, in order.
#[derive(Default)]
struct Unanswered {
    calls: Mutex<VecDeque<Call>>,
    fewer: Condvar,
}

/// The i-th call of a connection: its kind and its id.
fn call_at(connection: usize, i: usize) -> (Kind, String) {
    let kind = match i % 10 {
        4 | 8 => Kind::Again,
        9 => Kind::Refused,
        _ => Kind::New,
    };
    let named = if kind == Kind::Again { i - 1 } else { i };
    (kind, format!("{connection}-{named}"))
}

fn body_of(firm: &str, kind: Kind, id: &str, number: usize) -> String {
    let account = if kind == Kind::Refused { "NONE" } else { "A1" };
    let lots = 10 * 10;
    header(firm, "AE", number)
        + &format!("571={id}|55=ESZ6|32={lots}|552=1|54=1|453=1|448=AAA|447=D|452=4|1={account}|")
}

/// Sends all calls, at most so many unanswered.
fn send_all(
    mut to: TcpStream,
    firm: &str,
    connection: usize,
    calls: usize,
    window: usize,
    unanswered: &Unanswered,
) {
    let mut out = Vec::new();
    let mut i = 0;
    while i < calls {
        let mut waiting = unanswered.calls.lock().unwrap();
        while waiting.len() >= window {
            waiting = unanswered.fewer.wait(waiting).unwrap();
        }
        out.clear();
        // as many as the window has room for, but no more than 64 in a write
        while i < calls && waiting.len() < window && out.len() < 64 * 150 {
            let (kind, id) = call_at(connection, i);
            frame(&body_of(firm, kind, &id, i + 2), &mut out);
            waiting.push_back(Call {
                kind,
                id,
                sent: Instant::now(),
            });
            i += 1;
        }
        drop(waiting);
        if to.write_all(&out).is_err() {
            return;
        }
    }
}

/// What a connection has to tell: when it began, the numbers of its entries, the time of each round trip, and how many reports came.
#[derive(Default)]
struct Told {
    began: Option<Instant>,
    entries: Vec<u32>,
    trips: Vec<Duration>,
    reports: usize,
}

/// Checks the answer to a call.
fn check(call: &Call, answer: &Fields, told: &mut Told) -> Result<(), String> {
    let wrong = |what: &str| Err(format!("{what}: call {}, answer {answer:?}", call.id));
    if value(answer, 571) != call.id {
        return wrong("another id");
    }
    if call.kind == Kind::Refused {
        return match value(answer, 58) {
            "2 unknown account" => Ok(()),
            _ => wrong("not refused as it must be"),
        };
    }
    let Some(entry) = value(answer, 58)
        .strip_prefix("entry ")
        .and_then(|n| n.parse().ok())
    else {
        return wrong("not accepted");
    };
    if value(answer, 939) != "0" {
        return wrong("another status");
    }
    match call.kind {
        Kind::Again if told.entries.last() == Some(&entry) => Ok(()),
        Kind::New if told.entries.last().is_none_or(|last| *last < entry) => {
            told.entries.push(entry);
            Ok(())
        }
        _ => wrong("another entry"),
    }
}

/// Reads until each call has its answer.
fn read_all(frames: &mut Frames, calls: usize, unanswered: &Unanswered) -> Result<Told, String> {
    let mut told = Told::default();
    let mut numbered = 1;
    while told.trips.len() < calls {
        let message = frames.next()?;
        numbered += 1;
        if value(&message, 34) != numbered.to_string() {
            return Err(format!("a number is missing: {message:?}"));
        }
        match value(&message, 35) {
            "AR" => {
                let call = unanswered
                    .calls
                    .lock()
                    .unwrap()
                    .pop_front()
                    .ok_or("an answer to no call")?;
                unanswered.fewer.notify_one();
                told.trips.push(call.sent.elapsed());
                check(&call, &message, &mut told)?;
            }
            "AS" => told.reports += 1,
            "0" => {}
            _ => return Err(format!("unexpected: {message:?}")),
        }
    }
    Ok(told)
}

/// A connection to the server.
fn connected(port: u16) -> Result<TcpStream, String> {
    let stream = TcpStream::connect(("127.0.0.1", port)).map_err(|e| e.to_string())?;
    stream.set_nodelay(true).map_err(|e| e.to_string())?;
    stream.set_read_timeout(Some(PATIENCE)).map_err(|e| e.to_string())?;
    Ok(stream)
}

/// Says why nothing can be gone on with, and ends.
fn failed(why: &str) -> ! {
    eprintln!("load: {why}");
    process::exit(1)
}

/// One connection of a firm, from its Logon to its Logout.
fn connection(
    port: u16,
    firm: String,
    connection: usize,
    calls: usize,
    window: usize,
    start: &Barrier,
) -> Result<Told, String> {
    let mut stream = connected(port)?;
    let mut out = Vec::new();
    frame(&(header(&firm, "A", 1) + "98=0|108=60|1137=9|"), &mut out);
    stream.write_all(&out).map_err(|e| e.to_string())?;
    let mut frames = Frames {
        stream: stream.try_clone().map_err(|e| e.to_string())?,
        held: Vec::new(),
        at: 0,
    };
    if value(&frames.next()?, 35) != "A" {
        return Err("no Logon came back".to_owned());
    }
    start.wait();
    let began = Some(Instant::now());
    let unanswered = Arc::new(Unanswered::default());
    let (to, shared) = (
        stream.try_clone().map_err(|e| e.to_string())?,
        unanswered.clone(),
    );
    let logout = header(&firm, "5", calls + 2);
    let sender = thread::spawn(move || send_all(to, &firm, connection, calls, window, &shared));
    let told = Told { began, ..read_all(&mut frames, calls, &unanswered)? };
    sender.join().map_err(|_| "the sender failed")?;
    out.clear();
    frame(&logout, &mut out);
    stream.write_all(&out).map_err(|e| e.to_string())?;
    while let Ok(message) = frames.next() {
        if value(&message, 35) == "5" {
            break;
        }
    }
    Ok(told)
}

/// The round trips, sorted: how many, their percentiles, and the longest.
fn percentiles(trips: &mut [Duration]) -> String {
    trips.sort_unstable();
    let at = |share: f64| {
        trips.get(((trips.len().max(1) - 1) as f64 * share) as usize).map_or(0.0, |t| t.as_nanos() as f64 / 1000.0)
    };
    format!(
        "{} calls; microseconds: p50 {:.1} p90 {:.1} p99 {:.1} p99.9 {:.1} most {:.1}",
        trips.len(), at(0.5), at(0.9), at(0.99), at(0.999), at(1.0)
    )
}

/// What all connections tell together: the entries have to be 1, 2, 3, .. each once.
fn tell_all(told: Vec<Told>, took: Duration) -> Result<(), String> {
    let mut entries = Vec::new();
    let mut trips = Vec::new();
    let mut reports = 0;
    for one in told {
        entries.extend(one.entries);
        trips.extend(one.trips);
        reports += one.reports;
    }
    entries.sort_unstable();
    if !entries.iter().enumerate().all(|(i, n)| *n as usize == i + 1) {
        return Err("the entries aren't 1, 2, 3, .. each once".to_owned());
    }
    println!(
        "{} accepted, {} reports, {:.0} calls a second: {}",
        entries.len(), reports, trips.len() as f64 / took.as_secs_f64(), percentiles(&mut trips)
    );
    Ok(())
}

/// Connections that all begin at once, of the house, or each of a firm of its own.
fn calls(port: u16, connections: usize, calls: usize, window: usize, name: Option<&String>) -> Result<(), String> {
    let start = Arc::new(Barrier::new(connections + 1));
    let running: Vec<_> = (0..connections)
        .map(|c| {
            let start = start.clone();
            let firm = name.map_or("HSE".to_owned(), |name| format!("{name}{c}"));
            // one that fails before all are logged on would leave the others waiting
            thread::spawn(move || match connection(port, firm, c, calls, window, &start) {
                Ok(told) => told,
                Err(why) => failed(&why),
            })
        })
        .collect();
    start.wait();
    let mut told = Vec::new();
    for one in running {
        told.push(one.join().map_err(|_| "panicked")?);
    }
    // this thread may wake long after they have begun
    let began = told.iter().filter_map(|it| it.began).min();
    tell_all(told, began.map_or(Duration::ZERO, |it| it.elapsed()))
}

/// Connections in turn, so many at once.
fn turns(port: u16, at_once: usize, connections: usize, calls: usize) -> Result<(), String> {
    let next = Arc::new(AtomicUsize::new(0));
    let began = Instant::now();
    let running: Vec<_> = (0..at_once)
        .map(|_| {
            let next = next.clone();
            thread::spawn(move || {
                let mut told = Vec::new();
                loop {
                    let c = next.fetch_add(1, Ordering::SeqCst);
                    if c >= connections {
                        return Ok::<_, String>(told);
                    }
                    told.push(connection(port, "HSE".to_owned(), c, calls, 1, &Barrier::new(1))?);
                }
            })
        })
        .collect();
    let mut told = Vec::new();
    for one in running {
        told.extend(one.join().map_err(|_| "panicked")??);
    }
    tell_all(told, began.elapsed())
}

/// A session that sends and reads by turns.
struct Session {
    frames: Frames,
    firm: &'static str,
    number: usize,
    reports: usize,
}

impl Session {
    fn logged_on(port: u16, firm: &'static str) -> Result<Session, String> {
        let stream = connected(port)?;
        let frames = Frames { stream, held: Vec::new(), at: 0 };
        let mut session = Session { frames, firm, number: 0, reports: 0 };
        session.send(&[("A", "98=0|108=0|1137=9|".to_owned())])?;
        match value(&session.answer()?, 35) {
            "A" => Ok(session),
            _ => Err("no Logon came back".to_owned()),
        }
    }

    /// Sends messages in one write, each a type and a body.
    fn send(&mut self, messages: &[(&str, String)]) -> Result<(), String> {
        let mut out = Vec::new();
        for (kind, body) in messages {
            self.number += 1;
            let header = format!("35={kind}|49={}|56=HSE|34={}|52=20260302-09:00:00|", self.firm, self.number);
            frame(&(header + body), &mut out);
        }
        self.frames.stream.write_all(&out).map_err(|e| e.to_string())
    }

    /// The next message that is no report.
    fn answer(&mut self) -> Result<Fields, String> {
        loop {
            let message = self.frames.next()?;
            if value(&message, 35) != "AS" {
                return Ok(message);
            }
            self.reports += 1;
        }
    }

    /// Reads until so many reports have come in all.
    fn await_reports(&mut self, all: usize) -> Result<(), String> {
        while self.reports < all {
            match value(&self.frames.next()?, 35) {
                "AS" => self.reports += 1,
                kind => return Err(format!("{kind} where a report was due")),
            }
        }
        Ok(())
    }

    /// The time of a split of a trade that is refused, since it isn't the firm's or the parts don't sum.
    fn refused(&mut self) -> Result<Duration, String> {
        let body = format!("70=R{}|71=0|626=23|72=1.0|78=1|79=C1|80=1|", self.number);
        let began = Instant::now();
        self.send(&[("J", body)])?;
        let answer = self.answer()?;
        match value(&answer, 87) {
            "1" => Ok(began.elapsed()),
            _ => Err(format!("not refused: {answer:?}")),
        }
    }

    /// Enters trades of a lot for AAA, 64 in a write.
    fn fill(&mut self, entries: usize) -> Result<(), String> {
        let mut entered = 0;
        while entered < entries {
            let some = (entries - entered).min(64);
            let trade = |i: usize| format!("571=F{i}|55=ESZ6|32=1|552=1|54=1|453=1|448=AAA|447=D|452=4|1=A1|");
            let messages: Vec<_> = (entered..entered + some).map(|i| ("AE", trade(i))).collect();
            self.send(&messages)?;
            for _ in 0..some {
                let answer = self.answer()?;
                if value(&answer, 939) != "0" {
                    return Err(format!("not accepted: {answer:?}"));
                }
            }
            entered += some;
        }
        Ok(())
    }

    fn log_out(mut self) -> Result<(), String> {
        self.send(&[("5", String::new())])?;
        while value(&self.answer()?, 35) != "5" {}
        Ok(())
    }
}

/// The round trips of refused calls, one at a time, until it is time to stop, and of so many at least.
fn refused_until(session: &mut Session, least: usize, stop: impl Fn() -> bool) -> Result<Vec<Duration>, String> {
    let mut trips = Vec::new();
    while trips.len() < least || !stop() {
        trips.push(session.refused()?);
    }
    Ok(trips)
}

/// A firm that catches up on so many reports, and the house's calls beside it.
fn behind(port: u16, entries: usize) -> Result<(), String> {
    let mut house = Session::logged_on(port, "HSE")?;
    house.fill(entries)?;
    let mut alone = refused_until(&mut house, 10_000, || true)?;
    println!("the house alone: {}", percentiles(&mut alone));
    let done = Arc::new(AtomicBool::new(false));
    let firm = thread::spawn({
        let done = done.clone();
        move || {
            let began = Instant::now();
            let told = Session::logged_on(port, "AAA").and_then(|mut aaa| {
                aaa.await_reports(entries)?;
                let took = began.elapsed();
                aaa.log_out().map(|()| took)
            });
            done.store(true, Ordering::SeqCst);
            told
        }
    });
    let mut beside = refused_until(&mut house, 1, || done.load(Ordering::SeqCst))?;
    let took = firm.join().map_err(|_| "panicked")??;
    println!("AAA: {entries} reports in {:.2} s", took.as_secs_f64());
    println!("the house meanwhile: {}", percentiles(&mut beside));
    house.log_out()
}

/// A firm that nothing concerns, in an empty and in a full book, and AAA's calls beside it.
fn beside(port: u16, entries: usize) -> Result<(), String> {
    const CALLS: usize = 10_000;
    let mut ccc = Session::logged_on(port, "CCC")?;
    let mut empty = refused_until(&mut ccc, CALLS, || true)?;
    println!("CCC, empty book: {}", percentiles(&mut empty));
    ccc.log_out()?;
    let mut house = Session::logged_on(port, "HSE")?;
    house.fill(entries)?;
    house.log_out()?;
    let mut aaa = Session::logged_on(port, "AAA")?;
    aaa.await_reports(entries)?;
    let began = Instant::now();
    let mut alone = refused_until(&mut aaa, CALLS, || began.elapsed() > Duration::from_secs(2))?;
    println!("AAA alone: {}", percentiles(&mut alone));
    let done = Arc::new(AtomicBool::new(false));
    let firm = thread::spawn({
        let done = done.clone();
        move || {
            let told = Session::logged_on(port, "CCC").and_then(|mut ccc| {
                let first = ccc.refused()?;
                let began = Instant::now();
                let trips = refused_until(&mut ccc, CALLS, || began.elapsed() > Duration::from_secs(2))?;
                ccc.log_out().map(|()| (first, trips))
            });
            done.store(true, Ordering::SeqCst);
            told
        }
    });
    let mut meanwhile = refused_until(&mut aaa, 1, || done.load(Ordering::SeqCst))?;
    let (first, mut later) = firm.join().map_err(|_| "panicked")??;
    println!("CCC, {entries} entries, its first call: {:.1} microseconds", first.as_nanos() as f64 / 1000.0);
    println!("CCC, its later calls: {}", percentiles(&mut later));
    println!("AAA meanwhile: {}", percentiles(&mut meanwhile));
    aaa.log_out()
}

fn main() {
    let words: Vec<String> = env::args().skip(1).collect();
    let number = |i: usize| words.get(i).and_then(|w| w.parse::<usize>().ok()).unwrap_or(0);
    let port = number(0) as u16;
    let done = match (words.get(1).map(String::as_str), words.len()) {
        (Some("calls"), 5 | 6) => calls(port, number(2), number(3), number(4), words.get(5)),
        (Some("turns"), 5) => turns(port, number(2), number(3), number(4)),
        (Some("behind"), 3) => behind(port, number(2)),
        (Some("beside"), 3) => beside(port, number(2)),
        _ => Err("load PORT calls CONNECTIONS CALLS WINDOW, and so on: see its head".to_owned()),
    };
    if let Err(why) = done {
        failed(&why);
    }
}
