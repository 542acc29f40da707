//! Replays a journal from standard input, for comparison with `pageshare replay`: the same texts, verdicts and report.
//!
//! A bad text ends it with one line that names no cause; the text's forms are looked at as strictly.
mod machine;

use machine::{Bytes, Machine, Report, Request, Verdict, PAGE};
use std::io::{self, BufWriter, Read, Write};

struct Journal {
    frames: usize,
    pages: Vec<u32>,
    salts: Vec<u32>,
    entries: Vec<(usize, Request)>,
}

// Decimal digits with no needless zero in front.
fn number(word: &str) -> Option<u32> {
    if word.is_empty() || !word.bytes().all(|b| b.is_ascii_digit()) || (word.len() > 1 && word.starts_with('0')) {
        return None;
    }
    word.parse().ok()
}

// Lower-case hexadecimal digits, of 1 to 64 bytes.
fn bytes(word: &str) -> Option<Bytes> {
    let mut room = [0; 64];
    let room = room.get_mut(..word.len() / 2).filter(|room| !room.is_empty())?;
    if word.bytes().any(|b| b.is_ascii_uppercase()) {
        return None;
    }
    hex::decode_to_slice(word, room).ok()?;
    Some(Bytes::new(room))
}

fn numbers(line: Option<&str>, name: &str) -> Option<Vec<u32>> {
    let words = line?.strip_prefix(name)?;
    words.split(' ').map(number).collect()
}

fn request(line: &str) -> Option<(usize, Request)> {
    let mut words = line.split(' ');
    let guest = number(words.next()?)?;
    let request = match words.next()? {
        "propose" => Request::Propose(number(words.next()?)?),
        "store" => Request::Store { ppn: number(words.next()?)?, at: number(words.next()?)?, bytes: bytes(words.next()?)? },
        "load" => Request::Load { ppn: number(words.next()?)?, at: number(words.next()?)?, len: number(words.next()?)? },
        "release" => Request::Release(number(words.next()?)?),
        "count" => Request::Count,
        "close" => Request::Close,
        _ => return None,
    };
    let (at, len) = match &request {
        Request::Store { at, bytes, .. } => (*at, bytes.as_slice().len() as u32),
        Request::Load { at, len, .. } => (*at, *len),
        _ => (0, 1),
    };
    let fits = (1..=64).contains(&len) && u64::from(at) + u64::from(len) <= PAGE as u64;
    (fits && words.next().is_none()).then_some((guest as usize, request))
}

fn journal(text: &str) -> Option<Journal> {
    let mut lines = text.strip_suffix('\n')?.split('\n');
    let is_salted = match lines.next()? {
        "pageshare journal 1" => false,
        "pageshare journal 2" => true,
        _ => return None,
    };
    let frames = number(lines.next()?.strip_prefix("frames ")?)? as usize;
    let pages = numbers(lines.next(), "pages ")?;
    let salts = if is_salted { numbers(lines.next(), "salts ")? } else { vec![0; pages.len()] };
    let mut has_closed = vec![false; pages.len()];
    let mut entries = Vec::new();
    loop {
        let line = lines.next()?;
        if let Some(count) = line.strip_prefix("end ") {
            let is_whole = number(count)? as usize == entries.len() && lines.next().is_none();
            return (is_whole && salts.len() == pages.len()).then_some(Journal { frames, pages, salts, entries });
        }
        let (guest, request) = request(line)?;
        if *has_closed.get(guest)? {
            return None;
        }
        has_closed[guest] = matches!(request, Request::Close);
        entries.push((guest, request));
    }
}

fn write_report(out: &mut impl Write, r: &Report) -> io::Result<()> {
    let Report { entries, mapped, shared, frames, hints } = r;
    let reclaimed = mapped - frames;
    writeln!(out, "entries {entries} mapped {mapped} shared {shared} frames {frames} reclaimed {reclaimed} hints {hints}")
}

fn write_verdict(out: &mut impl Write, guest: usize, verdict: &Verdict) -> io::Result<()> {
    let word = match verdict {
        Verdict::Joined(count) => return writeln!(out, "{guest} joined {count}"),
        Verdict::Bytes(bytes) => {
            let mut digits = [0; 128];
            let digits = &mut digits[..2 * bytes.as_slice().len()];
            hex::encode_to_slice(bytes.as_slice(), digits).map_err(io::Error::other)?;
            write!(out, "{guest} bytes ")?;
            out.write_all(digits)?;
            return out.write_all(b"\n");
        }
        Verdict::Totals(report) => {
            write!(out, "{guest} totals ")?;
            return write_report(out, report);
        }
        Verdict::NoPage => "no-page",
        Verdict::Unmapped => "unmapped",
        Verdict::Already => "already",
        Verdict::Paired => "paired",
        Verdict::Hinted => "hinted",
        Verdict::Kept => "kept",
        Verdict::Replaced => "replaced",
        Verdict::Ineligible => "ineligible",
        Verdict::Mapped => "mapped",
        Verdict::Stored => "stored",
        Verdict::Copied => "copied",
        Verdict::Taken => "taken",
        Verdict::NoFrame => "no-frame",
        Verdict::Released(true) => "released freed",
        Verdict::Released(false) => "released held",
        Verdict::Closed => "closed",
    };
    writeln!(out, "{guest} {word}")
}

fn main() -> io::Result<()> {
    let mut text = String::new();
    io::stdin().lock().read_to_string(&mut text)?;
    let mut out = BufWriter::with_capacity(65_536, io::stdout().lock());
    let Some(journal) = journal(&text) else {
        return writeln!(out, "fault");
    };
    let mut machine = Machine::new(journal.frames, &journal.pages, &journal.salts);
    for (guest, request) in &journal.entries {
        write_verdict(&mut out, *guest, &machine.apply(*guest, request))?;
    }
    write!(out, "report ")?;
    write_report(&mut out, &machine.report())?;
    out.flush()
}
