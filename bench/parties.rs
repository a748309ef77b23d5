//! The proved house file beside a reader of the same format over std's `HashMap`: a file of 100,000 lines, and look-ups in its table.
//! `bench/parties` builds and runs it.

use std::hint::black_box;
use std::time::Instant;

#[link(name = "bench_parties", kind = "static")]
unsafe extern "C" {
    fn read_and_look_up(text: *const u8, text_len: usize, queries: *const u8, queries_len: usize, rounds: u32) -> u64;
}

/// The same, as one writes it in Rust.
mod in_rust {
    use std::collections::HashMap;

    /// A firm, an account or an instrument: 1 to 16 bytes, in place.
    #[derive(Clone, Copy, PartialEq, Eq, Hash)]
    pub struct Name {
        text: [u8; 16],
        len: u8,
    }

    impl Name {
        pub fn new(text: &[u8]) -> Option<Name> {
            if text.is_empty() || text.len() > 16 || !text.iter().all(|b| (0x21..=0x7e).contains(b)) {
                return None;
            }
            let mut name = Name { text: [0; 16], len: text.len() as u8 };
            name.text[..text.len()].copy_from_slice(text);
            Some(name)
        }

        pub fn len(&self) -> usize {
            self.len as usize
        }
    }

    #[derive(Clone, Copy)]
    pub struct Agreement {
        pub rate: u64,
        pub limit: u64,
    }

    pub enum Cause {
        TooManyLines,
        BadVersion,
        NoHouse,
        BadLine,
        BadName,
        BadNumber,
        OwnAgreement,
        UnknownName,
        NamedTwice,
    }

    /// Each map leads from a name to its place; the lists give the names by place.
    pub struct House {
        pub house: Name,
        firms: HashMap<Name, usize>,
        firm_list: Vec<Name>,
        accounts: HashMap<(Name, Name), usize>,
        account_list: Vec<(Name, Name)>,
        instruments: HashMap<Name, usize>,
        instrument_list: Vec<Name>,
        agreements: HashMap<(Name, Name), usize>,
        agreement_list: Vec<((Name, Name), Agreement)>,
    }

    fn name(text: &[u8]) -> Result<Name, Cause> {
        Name::new(text).ok_or(Cause::BadName)
    }

    fn number(text: &[u8], most: u64) -> Result<u64, Cause> {
        if text.is_empty() || text.len() > 14 || (text[0] == b'0' && text.len() > 1) || !text.iter().all(u8::is_ascii_digit) {
            return Err(Cause::BadNumber);
        }
        let value = text.iter().fold(0u64, |n, b| 10 * n + u64::from(b - b'0'));
        if value <= most { Ok(value) } else { Err(Cause::BadNumber) }
    }

    impl House {
        fn alone(house: Name) -> House {
            House {
                house,
                firms: HashMap::new(),
                firm_list: Vec::new(),
                accounts: HashMap::new(),
                account_list: Vec::new(),
                instruments: HashMap::new(),
                instrument_list: Vec::new(),
                agreements: HashMap::new(),
                agreement_list: Vec::new(),
            }
        }

        pub fn firm(&self, firm: &Name) -> bool {
            self.house == *firm || self.firms.contains_key(firm)
        }

        pub fn account(&self, firm: &Name, account: &Name) -> bool {
            self.accounts.contains_key(&(*firm, *account))
        }

        pub fn agreement(&self, giver: &Name, taker: &Name) -> Option<Agreement> {
            self.agreements.get(&(*giver, *taker)).map(|place| self.agreement_list[*place].1)
        }

        fn read_line(&mut self, line: &[u8]) -> Result<(), Cause> {
            let mut words = line.split(|b| *b == b' ');
            let first = words.next().unwrap_or(b"");
            match (first, words.next(), words.next(), words.next(), words.next(), words.next()) {
                (b"FIRM", Some(firm), None, ..) => {
                    let firm = name(firm)?;
                    if self.firm(&firm) {
                        return Err(Cause::NamedTwice);
                    }
                    self.firms.insert(firm, self.firm_list.len());
                    self.firm_list.push(firm);
                }
                (b"ACCOUNT", Some(firm), Some(account), None, ..) => {
                    let key = (name(firm)?, name(account)?);
                    if !self.firm(&key.0) {
                        return Err(Cause::UnknownName);
                    }
                    if self.accounts.contains_key(&key) {
                        return Err(Cause::NamedTwice);
                    }
                    self.accounts.insert(key, self.account_list.len());
                    self.account_list.push(key);
                }
                (b"INSTRUMENT", Some(instrument), None, ..) => {
                    let instrument = name(instrument)?;
                    if self.instruments.contains_key(&instrument) {
                        return Err(Cause::NamedTwice);
                    }
                    self.instruments.insert(instrument, self.instrument_list.len());
                    self.instrument_list.push(instrument);
                }
                (b"AGREEMENT", Some(giver), Some(taker), Some(rate), Some(limit), None) => {
                    let pair = (name(giver)?, name(taker)?);
                    let agreement = Agreement { rate: number(rate, 100_000)?, limit: number(limit, 10_000_000_000_000)? };
                    if pair.0 == pair.1 {
                        return Err(Cause::OwnAgreement);
                    }
                    if !self.firm(&pair.0) || !self.firm(&pair.1) {
                        return Err(Cause::UnknownName);
                    }
                    if self.agreements.contains_key(&pair) {
                        return Err(Cause::NamedTwice);
                    }
                    self.agreements.insert(pair, self.agreement_list.len());
                    self.agreement_list.push((pair, agreement));
                }
                _ => return Err(Cause::BadLine),
            }
            Ok(())
        }

        pub fn parse(text: &[u8]) -> Result<House, (u32, Cause)> {
            let text = text.strip_suffix(b"\n").unwrap_or(text);
            let mut lines = text.split(|b| *b == b'\n');
            if lines.next() != Some(b"GIVEUP 1".as_slice()) {
                return Err((1, Cause::BadVersion));
            }
            let second = lines.next().ok_or((2, Cause::NoHouse))?;
            let mut words = second.split(|b| *b == b' ');
            if words.next() != Some(b"HOUSE".as_slice()) {
                return Err((2, Cause::NoHouse));
            }
            let (Some(house), None) = (words.next(), words.next()) else {
                return Err((2, Cause::BadLine));
            };
            let mut house = House::alone(name(house).map_err(|cause| (2, cause))?);
            for (line, number) in lines.zip(3..) {
                if number > 100_000 {
                    return Err((number, Cause::TooManyLines));
                }
                house.read_line(line).map_err(|cause| (number, cause))?;
            }
            Ok(house)
        }
    }
}

use in_rust::{House, Name};

fn mixed(mix: u64, number: u64) -> u64 {
    mix.wrapping_mul(31).wrapping_add(number)
}

fn found(house: &House, query: &[u8]) -> u64 {
    if query.len() < 24 {
        return 0;
    }
    match (Name::new(&query[..8]), Name::new(&query[8..16]), Name::new(&query[16..24])) {
        (Some(giver), Some(account), Some(taker)) => {
            let mix = mixed(house.firm(&giver) as u64, house.account(&giver, &account) as u64);
            match house.agreement(&giver, &taker) {
                Some(terms) => mixed(mix, terms.rate.wrapping_add(terms.limit)),
                None => mix,
            }
        }
        _ => 0,
    }
}

#[inline(never)]
fn read_and_look_up_in_rust(text: &[u8], queries: &[u8], rounds: u32) -> u64 {
    match House::parse(text) {
        Ok(house) => {
            let mut mix = house.house.len() as u64;
            for _ in 0..rounds {
                let all = queries.chunks(24).fold(0, |all, query| mixed(all, found(&house, query)));
                mix = mixed(mix, all);
            }
            mix
        }
        Err(_) => 1,
    }
}

fn read_and_look_up_proved(text: &[u8], queries: &[u8], rounds: u32) -> u64 {
    unsafe { read_and_look_up(text.as_ptr(), text.len(), queries.as_ptr(), queries.len(), rounds) }
}

const FIRMS: usize = 20_000;
const ACCOUNTS: usize = 48_998;
const INSTRUMENTS: usize = 1_000;
const AGREEMENTS: usize = 30_000;
const QUERIES: usize = 100_000;
const ROUNDS: u32 = 10;

/// The number of a firm, spread so that neighbours in the file aren't neighbours in number.
fn spread(n: usize, of: usize) -> usize {
    n * 7_919 % of
}

/// A house file of 100,000 lines.
fn house_file() -> Vec<u8> {
    let mut text = String::from("GIVEUP 1\nHOUSE HSE\n");
    for n in 0..FIRMS {
        text += &format!("FIRM FIRM{:04}\n", spread(n, FIRMS) + 1_000);
    }
    for n in 0..ACCOUNTS {
        text += &format!("ACCOUNT FIRM{:04} ACCT{:04}\n", spread(n, FIRMS) + 1_000, n / FIRMS + 1_000);
    }
    for n in 0..INSTRUMENTS {
        text += &format!("INSTRUMENT ES{n}\n");
    }
    for n in 0..AGREEMENTS {
        let giver = spread(n, FIRMS);
        text += &format!("AGREEMENT FIRM{:04} FIRM{:04} {} {}\n", giver + 1_000, (giver + 1 + n / FIRMS) % FIRMS + 1_000, n % 100_001, n * 331);
    }
    text.into_bytes()
}

/// Queries of a giver, an account and a taker, 8 bytes each: about half of what they ask for is there.
fn queries() -> Vec<u8> {
    let mut text = String::new();
    for n in 0..QUERIES {
        let giver = spread(n, 9_000) + if n % 2 == 0 { 0 } else { 500 };
        text += &format!("FIRM{:04}ACCT{:04}FIRM{:04}", giver % 9_000 + 1_000, n % 5 + 1_000, (giver + n % 3) % 9_000 + 1_000);
    }
    text.into_bytes()
}

/// The least of several times of a call, in nanoseconds, with its answer.
fn least(call: impl Fn() -> u64) -> (f64, u64) {
    let mut answer = 0;
    let mut least = f64::MAX;
    for _ in 0..15 {
        let start = Instant::now();
        answer = black_box(call());
        least = least.min(start.elapsed().as_nanos() as f64);
    }
    (least, answer)
}

fn main() {
    let text = house_file();
    let queries = queries();
    let lines = text.iter().filter(|b| **b == b'\n').count() as f64;
    let (parse_proved, one) = least(|| read_and_look_up_proved(black_box(&text), &queries, 0));
    let (parse_in_rust, two) = least(|| read_and_look_up_in_rust(black_box(&text), &queries, 0));
    let (all_proved, three) = least(|| read_and_look_up_proved(black_box(&text), &queries, ROUNDS));
    let (all_in_rust, four) = least(|| read_and_look_up_in_rust(black_box(&text), &queries, ROUNDS));
    assert!(one == two && one != 1 && three == four, "both sides find the same");
    let looks = f64::from(ROUNDS) * 3.0 * QUERIES as f64;
    let look_proved = (all_proved - parse_proved) / looks;
    let look_in_rust = (all_in_rust - parse_in_rust) / looks;
    println!("lines {lines}");
    println!("parse: proved {:.1} ms, in Rust {:.1} ms", parse_proved / 1e6, parse_in_rust / 1e6);
    println!("a look-up: proved {look_proved:.1} ns, in Rust {look_in_rust:.1} ns");
    println!("ratio of look-ups {:.2}", look_in_rust / look_proved);
    println!("ratio of parsing {:.2}", parse_in_rust / parse_proved);
}
