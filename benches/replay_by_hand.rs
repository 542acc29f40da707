//! Replays a journal as replay.rs does, with the text read and printed by hand: one pass over the bytes, digits by tables, and
//! no crate for the text. The machine is the same.
mod machine;

use machine::{Bytes, Machine, Report, Request, Verdict, PAGE};
use std::io::{self, Read, Write};

const DIGITS: &[u8; 16] = b"0123456789abcdef";
const NO_DIGIT: u8 = 255;
static VALUES: [u8; 256] = values();

const fn values() -> [u8; 256] {
    let mut values = [NO_DIGIT; 256];
    let mut n = 0;
    while n < 16 {
        values[DIGITS[n] as usize] = n as u8;
        n += 1;
    }
    values
}

struct Journal {
    frames: usize,
    pages: Vec<u32>,
    salts: Vec<u32>,
    entries: Vec<(usize, Request)>,
}

/// What is left of the text. A number's first byte is looked at by `number`, and the byte after a word by `byte`.
struct Cursor<'a> {
    rest: &'a [u8],
}

impl<'a> Cursor<'a> {
    fn starts(&mut self, words: &[u8]) -> bool {
        match self.rest.strip_prefix(words) {
            Some(rest) => {
                self.rest = rest;
                true
            }
            None => false,
        }
    }

    fn expect(&mut self, words: &[u8]) -> Option<()> {
        self.starts(words).then_some(())
    }

    // Decimal digits with no needless zero in front.
    fn number(&mut self) -> Option<u32> {
        let mut n = 0u64;
        let mut len = 0;
        while let Some(&b) = self.rest.get(len) {
            let digit = b.wrapping_sub(b'0');
            if digit > 9 {
                break;
            }
            if len == 10 {
                return None;
            }
            n = 10 * n + u64::from(digit);
            len += 1;
        }
        if len == 0 || (len > 1 && self.rest[0] == b'0') {
            return None;
        }
        self.rest = &self.rest[len..];
        u32::try_from(n).ok()
    }

    fn next_number(&mut self) -> Option<u32> {
        self.expect(b" ")?;
        self.number()
    }

    // Lower-case hexadecimal digits, of 1 to 64 bytes.
    fn bytes(&mut self) -> Option<Bytes> {
        let mut room = [0; 64];
        let mut len = 0;
        while let [high, low, ..] = *self.rest {
            let (high, low) = (VALUES[usize::from(high)], VALUES[usize::from(low)]);
            if high | low == NO_DIGIT {
                break;
            }
            *room.get_mut(len)? = high << 4 | low;
            len += 1;
            self.rest = &self.rest[2..];
        }
        (len > 0).then(|| Bytes::new(&room[..len]))
    }

    fn numbers(&mut self) -> Option<Vec<u32>> {
        let mut numbers = Vec::new();
        while !self.starts(b"\n") {
            numbers.push(self.next_number()?);
        }
        (!numbers.is_empty()).then_some(numbers)
    }

    fn request(&mut self) -> Option<Request> {
        self.expect(b" ")?;
        Some(match *self.rest.first()? {
            b'p' => {
                self.expect(b"propose")?;
                Request::Propose(self.next_number()?)
            }
            b's' => {
                self.expect(b"store")?;
                let (ppn, at) = (self.next_number()?, self.next_number()?);
                self.expect(b" ")?;
                let bytes = self.bytes()?;
                fits(at, bytes.as_slice().len() as u32)?;
                Request::Store { ppn, at, bytes }
            }
            b'l' => {
                self.expect(b"load")?;
                let (ppn, at, len) = (self.next_number()?, self.next_number()?, self.next_number()?);
                fits(at, len)?;
                Request::Load { ppn, at, len }
            }
            b'r' => {
                self.expect(b"release")?;
                Request::Release(self.next_number()?)
            }
            _ if self.starts(b"count") => Request::Count,
            _ => {
                self.expect(b"close")?;
                Request::Close
            }
        })
    }
}

fn fits(at: u32, len: u32) -> Option<()> {
    let fits = (1..=64).contains(&len) && u64::from(at) + u64::from(len) <= PAGE as u64;
    fits.then_some(())
}

fn journal(text: &[u8]) -> Option<Journal> {
    let mut text = Cursor { rest: text };
    let is_salted = !text.starts(b"pageshare journal 1\n");
    if is_salted {
        text.expect(b"pageshare journal 2\n")?;
    }
    text.expect(b"frames")?;
    let frames = text.next_number()? as usize;
    text.expect(b"\npages")?;
    let pages = text.numbers()?;
    let salts = if is_salted {
        text.expect(b"salts")?;
        text.numbers()?
    } else {
        vec![0; pages.len()]
    };
    let mut has_closed = vec![false; pages.len()];
    let mut entries = Vec::new();
    loop {
        if text.starts(b"end") {
            let is_whole = text.next_number()? as usize == entries.len() && text.rest == b"\n";
            return (is_whole && salts.len() == pages.len()).then_some(Journal { frames, pages, salts, entries });
        }
        let guest = text.number()? as usize;
        let request = text.request()?;
        text.expect(b"\n")?;
        if *has_closed.get(guest)? {
            return None;
        }
        has_closed[guest] = matches!(request, Request::Close);
        entries.push((guest, request));
    }
}

/// Output that is written when a longest line may not fit.
struct Lines<W> {
    out: W,
    kept: Vec<u8>,
}

impl<W: Write> Lines<W> {
    const ROOM: usize = 65_536;

    fn new(out: W) -> Lines<W> {
        Lines { out, kept: Vec::with_capacity(Self::ROOM) }
    }

    fn number(&mut self, n: u32) {
        let mut digits = [0; 10];
        let mut at = digits.len();
        let mut n = n;
        loop {
            at -= 1;
            digits[at] = b'0' + (n % 10) as u8;
            n /= 10;
            if n == 0 {
                break;
            }
        }
        self.kept.extend_from_slice(&digits[at..]);
    }

    fn bytes(&mut self, bytes: &[u8]) {
        for byte in bytes {
            self.kept.extend_from_slice(&[DIGITS[usize::from(byte >> 4)], DIGITS[usize::from(byte & 15)]]);
        }
    }

    fn report(&mut self, r: &Report) {
        let parts: [(&[u8], u32); 6] = [
            (b"entries ", r.entries),
            (b" mapped ", r.mapped),
            (b" shared ", r.shared),
            (b" frames ", r.frames),
            (b" reclaimed ", r.mapped - r.frames),
            (b" hints ", r.hints),
        ];
        for (words, n) in parts {
            self.kept.extend_from_slice(words);
            self.number(n);
        }
    }

    fn verdict(&mut self, guest: usize, verdict: &Verdict) {
        self.number(guest as u32);
        let words: &[u8] = match verdict {
            Verdict::NoPage => b" no-page",
            Verdict::Unmapped => b" unmapped",
            Verdict::Already => b" already",
            Verdict::Joined(_) => b" joined ",
            Verdict::Paired => b" paired",
            Verdict::Hinted => b" hinted",
            Verdict::Kept => b" kept",
            Verdict::Replaced => b" replaced",
            Verdict::Ineligible => b" ineligible",
            Verdict::Mapped => b" mapped",
            Verdict::Stored => b" stored",
            Verdict::Copied => b" copied",
            Verdict::Taken => b" taken",
            Verdict::NoFrame => b" no-frame",
            Verdict::Bytes(_) => b" bytes ",
            Verdict::Released(true) => b" released freed",
            Verdict::Released(false) => b" released held",
            Verdict::Totals(_) => b" totals ",
            Verdict::Closed => b" closed",
        };
        self.kept.extend_from_slice(words);
        match verdict {
            Verdict::Joined(count) => self.number(*count),
            Verdict::Bytes(bytes) => self.bytes(bytes.as_slice()),
            Verdict::Totals(report) => self.report(report),
            _ => {}
        }
    }

    fn end_line(&mut self) -> io::Result<()> {
        self.kept.push(b'\n');
        if Self::ROOM - self.kept.len() < 160 { self.flush() } else { Ok(()) }
    }

    fn flush(&mut self) -> io::Result<()> {
        self.out.write_all(&self.kept)?;
        self.kept.clear();
        Ok(())
    }
}

fn main() -> io::Result<()> {
    let mut text = Vec::new();
    io::stdin().lock().read_to_end(&mut text)?;
    let mut out = Lines::new(io::stdout().lock());
    let Some(journal) = journal(&text) else {
        out.kept.extend_from_slice(b"fault\n");
        return out.flush();
    };
    let mut machine = Machine::new(journal.frames, &journal.pages, &journal.salts);
    for (guest, request) in &journal.entries {
        out.verdict(*guest, &machine.apply(*guest, request));
        out.end_line()?;
    }
    out.kept.extend_from_slice(b"report ");
    out.report(&machine.report());
    out.end_line()?;
    out.flush()
}
