//! The proved session beside one written by hand, over a Logon and 100,000 calls, each with its Reply, in one session. `bench/session` builds
//! and runs it.

#![allow(dead_code)]

use std::hint::black_box;
use std::time::Instant;

#[link(name = "bench_session", kind = "static")]
unsafe extern "C" {
    fn step_over(house: *const u8, house_len: usize, frames: *const u8, frames_len: usize) -> u64;
}

/// The same, as one writes it in Rust: the frames, the messages of a firm, and the whole of the session's table.
mod by_hand {
    use std::collections::{HashSet, VecDeque};

    pub const SOH: u8 = 1;
    const LAST_NUMBER: u32 = 999_999_999;

    // ---- frames

    /// A field of a frame: its tag, and where its value stands.
    #[derive(Clone, Copy)]
    pub struct Field {
        tag: u32,
        start: u32,
        end: u32,
    }

    /// Reads the frame at the front: its fields go into `fields`. Its length, if it is a good one.
    pub fn read_frame(bytes: &[u8], fields: &mut Vec<Field>) -> Option<usize> {
        let rest = bytes.strip_prefix(b"8=FIXT.1.1\x019=")?;
        let digits = rest.iter().take(7).position(|b| *b == SOH).filter(|n| *n > 0)?;
        let length = count(&rest[..digits])? as usize;
        let body = rest.get(digits + 1..)?.get(..length)?;
        let trailer = rest.get(digits + 1 + length..)?.get(..7)?;
        if length < 5 || body[length - 1] != SOH || &trailer[..3] != b"10=" || trailer[6] != SOH {
            return None;
        }
        let before = bytes.len() - rest.len() + digits + 1 + length;
        let sum = bytes[..before].iter().fold(0u8, |sum, b| sum.wrapping_add(*b));
        if u32::from(sum) != count(&trailer[3..6])? {
            return None;
        }
        fields.clear();
        let mut at = before - length;
        while at < before {
            let mut tag = 0u32;
            let from = at;
            while bytes[at].is_ascii_digit() && at - from < 9 {
                tag = tag * 10 + u32::from(bytes[at] - b'0');
                at += 1;
            }
            if bytes[at] != b'=' || at == from || bytes[from] == b'0' {
                return None;
            }
            let start = at + 1;
            let end = start + bytes[start..before].iter().position(|b| *b == SOH)?;
            if end == start {
                return None;
            }
            fields.push(Field { tag, start: start as u32, end: end as u32 });
            at = end + 1;
        }
        (fields.first()?.tag == 35).then_some(before + 7)
    }

    /// A message: its bytes, and its fields.
    #[derive(Clone, Copy)]
    pub struct Message<'a> {
        pub bytes: &'a [u8],
        pub fields: &'a [Field],
    }

    impl<'a> Message<'a> {
        fn value(&self, field: &Field) -> &'a [u8] {
            &self.bytes[field.start as usize..field.end as usize]
        }

        fn first(&self, tag: u32) -> Option<&'a [u8]> {
            self.fields.iter().find(|f| f.tag == tag).map(|f| self.value(f))
        }

        fn need<T>(&self, tag: u32, reason: u8, read: impl Fn(&'a [u8]) -> Option<T>) -> Result<T, Reject> {
            match self.first(tag) {
                None => Err(Reject { reason: 1, tag }),
                Some(value) => read(value).ok_or(Reject { reason, tag }),
            }
        }

        /// The segments after the first `counter` that begin at `lead`.
        fn entries(&self, counter: u32, lead: u32) -> impl Iterator<Item = Message<'a>> + Clone + use<'a> {
            let at = self.fields.iter().position(|f| f.tag == counter).map_or(self.fields.len(), |i| i + 1);
            let mut rest = &self.fields[at..];
            rest = &rest[rest.iter().position(|f| f.tag == lead).unwrap_or(rest.len())..];
            let bytes = self.bytes;
            let mut rest = rest;
            std::iter::from_fn(move || {
                let (_, behind) = rest.split_first()?;
                let end = behind.iter().position(|f| f.tag == lead).map_or(rest.len(), |i| i + 1);
                let (one, more) = rest.split_at(end);
                rest = more;
                Some(Message { bytes, fields: one })
            })
        }
    }

    // ---- values

    #[derive(Clone, Copy, PartialEq, Eq, Hash)]
    pub struct Text<const N: usize> {
        bytes: [u8; N],
        len: u8,
    }

    impl<const N: usize> Text<N> {
        fn new(text: &[u8], least: u8) -> Option<Text<N>> {
            if text.is_empty() || text.len() > N || !text.iter().all(|b| (least..=0x7e).contains(b)) {
                return None;
            }
            let mut bytes = [0; N];
            bytes[..text.len()].copy_from_slice(text);
            Some(Text { bytes, len: text.len() as u8 })
        }

        fn as_bytes(&self) -> &[u8] {
            &self.bytes[..self.len as usize]
        }
    }

    pub type Name = Text<16>;
    pub type Id = Text<32>;

    pub fn name(text: &[u8]) -> Option<Name> {
        Name::new(text, 0x21)
    }

    fn id(text: &[u8]) -> Option<Id> {
        Id::new(text, 0x20)
    }

    fn digits(text: &[u8], most: usize) -> Option<u64> {
        if text.is_empty() || text.len() > most || !text.iter().all(u8::is_ascii_digit) {
            return None;
        }
        Some(text.iter().fold(0, |n, b| n * 10 + u64::from(b - b'0')))
    }

    fn count(text: &[u8]) -> Option<u32> {
        digits(text, 9).map(|n| n as u32)
    }

    fn quantity(text: &[u8]) -> Option<u64> {
        match text.iter().position(|b| *b == b'.') {
            None => digits(text, 18),
            Some(dot) => {
                let zeros = &text[dot + 1..];
                let few = (1..=6).contains(&zeros.len());
                (few && zeros.iter().all(|b| *b == b'0')).then(|| digits(&text[..dot], 18)).flatten()
            }
        }
    }

    fn plain(text: &[u8], most: u64) -> Option<u64> {
        digits(text, 7).filter(|n| *n <= most && (text.len() == 1 || text[0] != b'0'))
    }

    fn node(text: &[u8]) -> Option<(u32, u32)> {
        let dot = text.iter().position(|b| *b == b'.')?;
        let entry = plain(&text[..dot], 1_000_000).filter(|n| *n > 0)?;
        Some((entry as u32, plain(&text[dot + 1..], 100)? as u32))
    }

    fn flag(text: &[u8]) -> Option<bool> {
        match text {
            b"Y" => Some(true),
            b"N" => Some(false),
            _ => None,
        }
    }

    fn is_time(text: &[u8]) -> bool {
        let part = |from: usize, to: usize| text.get(from..to).and_then(|t| digits(t, 4)).unwrap_or(9999);
        let (year, month, day) = (part(0, 4), part(4, 6), part(6, 8));
        let leap = year % 4 == 0 && (year % 100 != 0 || year % 400 == 0);
        let days = match month {
            2 => 28 + u64::from(leap),
            4 | 6 | 9 | 11 => 30,
            1..=12 => 31,
            _ => 0,
        };
        let rest = text.get(17..).unwrap_or(b"x");
        let fraction = rest.is_empty() || (rest[0] == b'.' && digits(&rest[1..], 12).is_some());
        (1..=days).contains(&day)
            && text[8] == b'-'
            && text[11] == b':'
            && text[14] == b':'
            && part(9, 11) < 24
            && part(12, 14) < 60
            && part(15, 17) <= 60
            && fraction
    }

    // ---- meaning

    #[derive(Clone, Copy)]
    pub struct Reject {
        reason: u8,
        tag: u32,
    }

    pub struct Part {
        pub lots: u64,
        pub firm: Name,
        pub account: Option<Name>,
    }

    pub enum Command {
        Split { node: (u32, u32), parts: Vec<Part> },
        Other,
    }

    enum Meaning<'a> {
        Logon { heartbeat: u32, reset: bool },
        Heartbeat,
        TestRequest { id: &'a [u8] },
        ResendRequest { from: u32, to: u32 },
        Reject,
        SequenceReset { fill: bool, next: u32 },
        Logout,
        Call { trade: bool, id: Id, command: Command },
    }

    struct Heading {
        firm: Name,
        number: u32,
        again: bool,
    }

    fn heading(m: &Message, house: &Name) -> Result<Heading, Reject> {
        let firm = m.need(49, 5, name)?;
        m.need(56, 5, |v| (v == house.as_bytes()).then_some(()))?;
        let number = m.need(34, 6, |v| count(v).filter(|n| *n > 0))?;
        Ok(Heading { firm, number, again: m.first(43) == Some(b"Y") })
    }

    fn optional_flag(m: &Message, tag: u32) -> Result<bool, Reject> {
        match m.first(tag) {
            None => Ok(false),
            Some(v) => flag(v).ok_or(Reject { reason: 6, tag }),
        }
    }

    fn meaning<'a>(m: &Message<'a>, heading: &Result<Heading, Reject>) -> Result<Meaning<'a>, Reject> {
        if let Some(f) = m.fields.iter().find(|f| matches!(f.tag, 95 | 96 | 212 | 213 | 354 | 355)) {
            return Err(Reject { reason: 2, tag: f.tag });
        }
        let firm = match heading {
            Ok(heading) => heading.firm,
            Err(fault) => return Err(*fault),
        };
        m.need(52, 6, |v| is_time(v).then_some(()))?;
        match m.value(&m.fields[0]) {
            b"J" => split(m, firm),
            b"AE" => Ok(Meaning::Call { trade: true, id: m.need(571, 5, id)?, command: Command::Other }),
            b"0" => Ok(Meaning::Heartbeat),
            b"3" => Ok(Meaning::Reject),
            b"5" => Ok(Meaning::Logout),
            b"A" => {
                m.need(98, 5, |v| (v == b"0").then_some(()))?;
                let heartbeat = m.need(108, 6, count)?;
                m.need(1137, 5, |v| (v == b"9").then_some(()))?;
                Ok(Meaning::Logon { heartbeat, reset: optional_flag(m, 141)? })
            }
            b"1" => Ok(Meaning::TestRequest { id: m.need(112, 5, |v| (v.len() <= 64).then_some(v))? }),
            b"2" => {
                let from = m.need(7, 6, count)?;
                if from == 0 {
                    return Err(Reject { reason: 5, tag: 7 });
                }
                Ok(Meaning::ResendRequest { from, to: m.need(16, 6, count)? })
            }
            b"4" => Ok(Meaning::SequenceReset { fill: optional_flag(m, 123)?, next: m.need(36, 6, count)? }),
            _ => Err(Reject { reason: 11, tag: 35 }),
        }
    }

    fn split<'a>(m: &Message<'a>, firm: Name) -> Result<Meaning<'a>, Reject> {
        let id = m.need(70, 5, id)?;
        m.need(71, 5, |v| matches!(v, b"0" | b"2" | b"6").then_some(()))?;
        match (m.first(71), m.need(626, 5, Some)?) {
            (Some(b"0"), b"17" | b"23") => {}
            _ => return Ok(Meaning::Call { trade: false, id, command: Command::Other }),
        }
        let node = m.need(72, 6, node)?;
        let told = m.need(78, 6, count)?;
        let entries = m.entries(78, 79);
        let many = entries.clone().count();
        if many as u32 != told {
            return Err(Reject { reason: 16, tag: 78 });
        }
        let mut parts = Vec::with_capacity(many);
        for entry in entries {
            let lots = entry.need(80, 6, quantity)?;
            let mut taker = None;
            if entry.first(539).is_some() {
                let told = entry.need(539, 6, count)?;
                let nested = entry.entries(539, 524);
                if nested.clone().count() as u32 != told {
                    return Err(Reject { reason: 16, tag: 539 });
                }
                if let Some(party) = nested.clone().find(|p| p.first(538) == Some(b"4")) {
                    taker = Some(party.need(524, 5, name)?);
                }
            }
            match taker {
                Some(taker) if taker != firm => parts.push(Part { lots, firm: taker, account: None }),
                _ => parts.push(Part { lots, firm, account: Some(entry.need(79, 5, name)?) }),
            }
        }
        Ok(Meaning::Call { trade: false, id, command: Command::Split { node, parts } })
    }

    // ---- writing

    pub type Time = [u8; 21];

    /// `YYYYMMDD-HH:MM:SS.sss` of milliseconds since 1970.
    pub fn time_of(moment: u64) -> Time {
        let (days, within) = (moment / 86_400_000, moment % 86_400_000);
        let z = days + 719_468;
        let (era, doe) = (z / 146_097, z % 146_097);
        let yoe = (doe - doe / 1_460 + doe / 36_524 - doe / 146_096) / 365;
        let doy = doe - (365 * yoe + yoe / 4 - yoe / 100);
        let mp = (5 * doy + 2) / 153;
        let (day, month) = (doy - (153 * mp + 2) / 5 + 1, if mp < 10 { mp + 3 } else { mp - 9 });
        let year = yoe + era * 400 + u64::from(month <= 2);
        let mut text = *b"00000000-00:00:00.000";
        let mut put = |at: usize, digits: usize, mut n: u64| {
            for i in (at..at + digits).rev() {
                text[i] = b'0' + (n % 10) as u8;
                n /= 10;
            }
        };
        put(0, 4, year);
        put(4, 2, month);
        put(6, 2, day);
        put(9, 2, within / 3_600_000);
        put(12, 2, within / 60_000 % 60);
        put(15, 2, within / 1_000 % 60);
        put(18, 3, within % 1_000);
        text
    }

    fn number(mut n: u64, out: &mut Vec<u8>) {
        let mut text = [0u8; 20];
        let mut at = 20;
        loop {
            at -= 1;
            text[at] = b'0' + (n % 10) as u8;
            n /= 10;
            if n == 0 {
                break;
            }
        }
        out.extend_from_slice(&text[at..]);
    }

    fn field(tag: &[u8], value: &[u8], out: &mut Vec<u8>) {
        out.extend_from_slice(tag);
        out.extend_from_slice(value);
        out.push(SOH);
    }

    fn field_number(tag: &[u8], n: u64, out: &mut Vec<u8>) {
        out.extend_from_slice(tag);
        number(n, out);
        out.push(SOH);
    }

    // ---- the session

    pub struct House {
        pub name: Name,
        pub firms: HashSet<Name>,
    }

    pub enum Event<'a> {
        Message(Message<'a>),
        Tick,
        /// The number and the status of the entry, or the text of the refusal; and the types and bodies of reports.
        Reply(Option<Result<(u32, u8), &'a str>>, Vec<Vec<u8>>),
        End,
    }

    #[derive(Default)]
    pub struct Actions {
        pub send: Vec<u8>,
        pub call: Option<(Id, Command)>,
        pub close: bool,
    }

    struct Kept {
        kind: &'static [u8],
        number: u32,
        sent: Time,
        body: Vec<u8>,
    }

    pub struct Session<'a> {
        house: &'a House,
        firm: Option<Name>,
        closed: bool,
        waiting: Option<(bool, Id)>,
        want: u32,
        out: u32,
        asked: Option<u32>,
        heartbeat: u32,
        came: u64,
        went: u64,
        tested: bool,
        kept: VecDeque<Kept>,
        frame: Vec<u8>,
        body: Vec<u8>,
    }

    impl<'a> Session<'a> {
        pub fn new(house: &'a House) -> Session<'a> {
            Session {
                house,
                firm: None,
                closed: false,
                waiting: None,
                want: 1,
                out: 1,
                asked: None,
                heartbeat: 0,
                came: 0,
                went: 0,
                tested: false,
                kept: VecDeque::new(),
                frame: Vec::new(),
                body: Vec::new(),
            }
        }

        pub fn step(&mut self, event: Event, moment: u64) -> Actions {
            let mut actions = Actions::default();
            if self.closed {
                return actions;
            }
            match event {
                Event::Message(m) => self.message(&m, moment, &mut actions),
                Event::Tick => self.tick(moment, &mut actions),
                Event::Reply(answer, reports) => self.reply(answer, reports, moment, &mut actions),
                Event::End => self.shut(),
            }
            if self.out > LAST_NUMBER + 1 || self.want > LAST_NUMBER {
                actions = Actions::default();
                self.shut();
            }
            if let Some(asked) = self.asked {
                if asked < self.want {
                    self.asked = None;
                }
            }
            actions.close = self.closed;
            actions
        }

        fn shut(&mut self) {
            self.closed = true;
            self.waiting = None;
        }

        /// Appends the frame of a body.
        fn frame(&mut self, kind: &[u8], number_of: u32, moment: u64, first: Option<&Time>, body: &[u8], send: &mut Vec<u8>) {
            let Some(firm) = self.firm else { return };
            let out = &mut self.frame;
            out.clear();
            field(b"35=", kind, out);
            field(b"49=", self.house.name.as_bytes(), out);
            field(b"56=", firm.as_bytes(), out);
            field_number(b"34=", u64::from(number_of), out);
            if first.is_some() {
                out.extend_from_slice(b"43=Y\x01");
            }
            field(b"52=", &time_of(moment), out);
            if let Some(first) = first {
                field(b"122=", first, out);
            }
            out.extend_from_slice(body);
            let from = send.len();
            send.extend_from_slice(b"8=FIXT.1.1\x019=");
            number(out.len() as u64, send);
            send.push(SOH);
            send.extend_from_slice(out);
            let sum = send[from..].iter().fold(0u8, |sum, b| sum.wrapping_add(*b));
            send.extend_from_slice(&[b'1', b'0', b'=', b'0' + sum / 100, b'0' + sum / 10 % 10, b'0' + sum % 10, SOH]);
        }

        /// A new message of the session.
        fn say(&mut self, kind: &[u8], moment: u64, actions: &mut Actions, write: impl FnOnce(&mut Vec<u8>)) {
            let mut body = std::mem::take(&mut self.body);
            body.clear();
            write(&mut body);
            self.frame(kind, self.out, moment, None, &body, &mut actions.send);
            self.body = body;
            self.out += 1;
            self.went = moment;
        }

        fn logout(&mut self, text: &str, moment: u64, actions: &mut Actions) {
            self.say(b"5", moment, actions, |out| {
                if !text.is_empty() {
                    field(b"58=", text.as_bytes(), out);
                }
            });
            self.shut();
        }

        fn reject(&mut self, m: &Message, fault: Reject, moment: u64, actions: &mut Actions) {
            let kind = m.value(&m.fields[0]);
            let about = m.first(34).and_then(count).unwrap_or(0);
            self.say(b"3", moment, actions, |out| {
                field_number(b"45=", u64::from(about), out);
                field_number(b"371=", u64::from(fault.tag), out);
                field(b"372=", &kind[..kind.len().min(8)], out);
                field_number(b"373=", u64::from(fault.reason), out);
            });
        }

        fn message(&mut self, m: &Message, moment: u64, actions: &mut Actions) {
            let heading = heading(m, &self.house.name);
            let meaning = meaning(m, &heading);
            let Some(firm) = self.firm else {
                return self.first_message(heading, meaning, moment, actions);
            };
            self.came = moment;
            self.tested = false;
            let heading = match heading {
                Ok(heading) if heading.firm == firm => heading,
                _ => return self.logout("bad header", moment, actions),
            };
            if let Ok(Meaning::SequenceReset { fill: false, next }) = meaning {
                if next >= self.want {
                    self.want = next;
                } else {
                    self.reject(m, Reject { reason: 5, tag: 36 }, moment, actions);
                }
            } else if heading.number < self.want {
                if !heading.again {
                    let text = format!("sequence number too low, expected {}", self.want);
                    self.logout(&text, moment, actions);
                }
            } else if heading.number > self.want {
                if m.value(&m.fields[0]) == b"5" {
                    return self.logout("", moment, actions);
                }
                if let Ok(Meaning::ResendRequest { from, to }) = meaning {
                    self.resend(from, to, moment, actions);
                }
                match self.asked {
                    None => {
                        let want = self.want;
                        self.say(b"2", moment, actions, |out| {
                            field_number(b"7=", u64::from(want), out);
                            out.extend_from_slice(b"16=0\x01");
                        });
                        self.asked = Some(heading.number);
                    }
                    Some(asked) => self.asked = Some(asked.max(heading.number)),
                }
            } else {
                self.want += 1;
                self.wanted(m, heading.number, meaning, moment, actions);
            }
        }

        fn first_message(&mut self, heading: Result<Heading, Reject>, meaning: Result<Meaning, Reject>, moment: u64, actions: &mut Actions) {
            match (heading, meaning) {
                (Ok(heading), Ok(Meaning::Logon { heartbeat, reset })) if heading.number == 1 && self.house.firms.contains(&heading.firm) => {
                    self.firm = Some(heading.firm);
                    self.want = 2;
                    self.heartbeat = heartbeat;
                    self.came = moment;
                    self.say(b"A", moment, actions, |out| {
                        out.extend_from_slice(b"98=0\x01");
                        field_number(b"108=", u64::from(heartbeat), out);
                        out.extend_from_slice(b"1137=9\x01");
                        if reset {
                            out.extend_from_slice(b"141=Y\x01");
                        }
                    });
                }
                _ => self.shut(),
            }
        }

        fn wanted(&mut self, m: &Message, number_of: u32, meaning: Result<Meaning, Reject>, moment: u64, actions: &mut Actions) {
            match meaning {
                Err(fault) => self.reject(m, fault, moment, actions),
                Ok(Meaning::Heartbeat | Meaning::Reject) => {}
                Ok(Meaning::TestRequest { id }) => self.say(b"0", moment, actions, |out| field(b"112=", id, out)),
                Ok(Meaning::Logout) => self.logout("", moment, actions),
                Ok(Meaning::Logon { .. }) => self.logout("second logon", moment, actions),
                Ok(Meaning::SequenceReset { next, .. }) if next > number_of => self.want = next,
                Ok(Meaning::SequenceReset { .. }) => self.reject(m, Reject { reason: 5, tag: 36 }, moment, actions),
                Ok(Meaning::ResendRequest { from, to }) => self.resend(from, to, moment, actions),
                Ok(Meaning::Call { trade, id, command }) => {
                    self.waiting = Some((trade, id));
                    actions.call = Some((id, command));
                }
            }
        }

        fn gap(&mut self, from: u32, next: u32, moment: u64, actions: &mut Actions) {
            if from < next {
                let mut body = b"123=Y\x01".to_vec();
                field_number(b"36=", u64::from(next), &mut body);
                self.frame(b"4", from, moment, Some(&time_of(moment)), &body, &mut actions.send);
            }
        }

        fn resend(&mut self, from: u32, to: u32, moment: u64, actions: &mut Actions) {
            let last = if to == 0 || to >= self.out { self.out - 1 } else { to };
            if from > last {
                return;
            }
            self.went = moment;
            let mut next = from;
            let kept = std::mem::take(&mut self.kept);
            for one in kept.iter().filter(|one| (from..=last).contains(&one.number)) {
                self.gap(next, one.number, moment, actions);
                self.frame(one.kind, one.number, moment, Some(&one.sent), &one.body, &mut actions.send);
                next = one.number + 1;
            }
            self.kept = kept;
            self.gap(next, last + 1, moment, actions);
        }

        fn tick(&mut self, moment: u64, actions: &mut Actions) {
            let h = u64::from(self.heartbeat);
            let came = moment.saturating_sub(self.came) / 1000;
            let went = moment.saturating_sub(self.went) / 1000;
            if self.firm.is_none() || h == 0 {
            } else if came >= 3 * h {
                self.logout("no heartbeat", moment, actions);
            } else if came >= 2 * h && !self.tested {
                self.tested = true;
                self.say(b"1", moment, actions, |out| out.extend_from_slice(b"112=TEST\x01"));
            } else if went >= h {
                self.say(b"0", moment, actions, |_| {});
            }
        }

        /// Sends an application message, and keeps it.
        fn tell(&mut self, kind: &'static [u8], body: Vec<u8>, moment: u64, actions: &mut Actions) {
            self.frame(kind, self.out, moment, None, &body, &mut actions.send);
            self.kept.push_back(Kept { kind, number: self.out, sent: time_of(moment), body });
            self.out += 1;
            self.went = moment;
        }

        fn reply(&mut self, answer: Option<Result<(u32, u8), &str>>, reports: Vec<Vec<u8>>, moment: u64, actions: &mut Actions) {
            if self.firm.is_none() {
                return;
            }
            if let (Some((trade, id)), Some(answer)) = (self.waiting.take(), answer) {
                // The body of a message that is kept no more is used again.
                let mut body = if self.kept.len() == 256 { self.kept.pop_front().unwrap().body } else { Vec::new() };
                body.clear();
                field(if trade { b"571=" } else { b"70=" }, id.as_bytes(), &mut body);
                match (answer, trade) {
                    (Ok((entry, _)), true) => {
                        body.extend_from_slice(b"939=0\x0158=entry ");
                        number(u64::from(entry), &mut body);
                        body.push(SOH);
                    }
                    (Ok((entry, status)), false) => {
                        field_number(b"793=", u64::from(entry), &mut body);
                        field_number(b"87=", u64::from(status), &mut body);
                    }
                    (Err(text), trade) => {
                        body.extend_from_slice(if trade { b"939=1\x01" } else { b"87=1\x01" });
                        field(b"58=", text.as_bytes(), &mut body);
                    }
                }
                self.tell(if trade { b"AR" } else { b"P" }, body, moment, actions);
            }
            for body in reports {
                self.tell(b"AS", body, moment, actions);
            }
            while self.kept.len() > 256 {
                self.kept.pop_front();
            }
        }
    }
}

use by_hand::{Event, House, Message, Session};

fn mixed(mix: u64, number: u64) -> u64 {
    mix.wrapping_mul(31).wrapping_add(number)
}

fn mixed_sent(mix: u64, sent: &[u8]) -> u64 {
    sent.iter().rev().take(8).fold(mixed(mix, sent.len() as u64), |mix, byte| mixed(mix, u64::from(*byte)))
}

/// 09:00:05 on 2 March 2026, in milliseconds since 1970.
const MOMENT: u64 = 1_772_442_005_000;

#[inline(never)]
fn step_over_by_hand(house: &House, frames: &[u8]) -> u64 {
    let mut session = Session::new(house);
    let mut fields = Vec::new();
    let mut rest = frames;
    let mut mix = 0;
    while let Some(len) = by_hand::read_frame(rest, &mut fields) {
        let asked = session.step(Event::Message(Message { bytes: rest, fields: &fields }), MOMENT);
        mix = mixed_sent(mix, &asked.send);
        if asked.call.is_some() {
            let replied = session.step(Event::Reply(Some(Ok((2, 0))), Vec::new()), MOMENT);
            mix = mixed_sent(mix, &replied.send);
        }
        rest = &rest[len..];
    }
    mixed(mix, rest.len() as u64)
}

const HOUSE: &str = "GIVEUP 1\nHOUSE HSE\nFIRM AAA\nFIRM BBB\nACCOUNT AAA A1\nACCOUNT AAA A2\nINSTRUMENT ESZ6\n";
const CALLS: usize = 100_000;
const ROUNDS: usize = 20;

fn framed(body: &str) -> Vec<u8> {
    let mut frame = format!("8=FIXT.1.1|9={}|{body}", body.len()).replace('|', "\x01").into_bytes();
    let sum = frame.iter().fold(0u8, |sum, b| sum.wrapping_add(*b));
    frame.extend_from_slice(format!("10={sum:03}\x01").as_bytes());
    frame
}

fn show(what: &str, seconds: f64) {
    println!("{what:16} {:8.1} ns a call with its reply {:6.2} million steps/s", seconds * 1e9 / CALLS as f64, 2.0 * CALLS as f64 / seconds / 1e6);
}

fn main() {
    let mut frames = framed("35=A|49=AAA|56=HSE|34=1|52=20260302-09:00:00|98=0|108=30|1137=9|");
    for i in 2..CALLS + 2 {
        frames.extend(framed(&format!(
            "35=J|49=AAA|56=HSE|34={i}|52=20260302-09:00:01|70=S{i}|71=0|626=23|72=1.0|78=2|79=A1|80=60|79=A2|80=40|"
        )));
    }
    let firms = ["HSE", "AAA", "BBB"].iter().map(|f| by_hand::name(f.as_bytes()).unwrap()).collect();
    let house = House { name: by_hand::name(b"HSE").unwrap(), firms };
    let (mut of_proved, mut of_hand) = (f64::MAX, f64::MAX);
    for _ in 0..ROUNDS {
        let start = Instant::now();
        let one = black_box(unsafe { step_over(HOUSE.as_ptr(), HOUSE.len(), frames.as_ptr(), frames.len()) });
        of_proved = of_proved.min(start.elapsed().as_secs_f64());
        let start = Instant::now();
        let two = black_box(step_over_by_hand(&house, black_box(&frames)));
        of_hand = of_hand.min(start.elapsed().as_secs_f64());
        assert_eq!(one, two, "the two sessions differ");
    }
    show("proved", of_proved);
    show("by hand", of_hand);
    println!("speed of the proved session over that by hand: {:.2}", of_hand / of_proved);
}
