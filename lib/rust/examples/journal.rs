//! Replays a journal text by calls of the wrapper: reads standard input, and writes what `pageshare replay` writes.
//!
//! For `checks/embed.py`, whose journals are well formed and have no close, which a program that embeds a machine doesn't ask.
//! Three words are of this program alone: `store-page PPN BYTES`, `lend PPN BYTES` and `take-back PPN`, with the 4,096 bytes of a
//! page; what is taken back is written behind its verdict.
//!
//! With the word `region` behind it, the frames are in a region, of which each frame that is free is given back to the system
//! after each call; and lends that follow on each other are one list. What is written is the same.
use pageshare::{Guest, Lending, LoadVerdict, Machine, Page, Region, ReturnVerdict, PAGE_BYTES};
use std::error::Error;
use std::io::{self, BufWriter, Write};
use std::str::SplitAsciiWhitespace;

type Done<T> = Result<T, Box<dyn Error>>;

fn number(words: &mut SplitAsciiWhitespace) -> Done<u32> {
    Ok(words.next().ok_or("a number is missing")?.parse()?)
}

fn numbers(words: SplitAsciiWhitespace) -> Done<Vec<u32>> {
    words.map(|word| Ok(word.parse()?)).collect()
}

fn bytes(words: &mut SplitAsciiWhitespace) -> Done<Vec<u8>> {
    let word = words.next().ok_or("bytes are missing")?;
    (0..word.len() / 2)
        .map(|i| {
            Ok(u8::from_str_radix(
                word.get(2 * i..2 * i + 2).ok_or("half a byte")?,
                16,
            )?)
        })
        .collect()
}

fn page(words: &mut SplitAsciiWhitespace) -> Done<Box<Page>> {
    let bytes = bytes(words)?.into_boxed_slice();
    Ok(bytes.try_into().map_err(|_| "not a whole page")?)
}

fn hexadecimal(start: &str, bytes: &[u8]) -> String {
    bytes
        .iter()
        .fold(start.to_owned(), |text, byte| format!("{text}{byte:02x}"))
}

/// One request, and the words of its verdict.
fn serve(machine: &mut Machine, guest: u32, words: &mut SplitAsciiWhitespace) -> Done<String> {
    Ok(match words.next() {
        Some("propose") => machine.propose(guest, number(words)?)?.to_string(),
        Some("release") => machine.release(guest, number(words)?)?.to_string(),
        Some("store-page") => machine
            .store_page(guest, number(words)?, &*page(words)?)?
            .to_string(),
        Some("lend") => machine
            .lend(guest, number(words)?, &*page(words)?)?
            .to_string(),
        Some("take-back") => {
            let mut room = [0; PAGE_BYTES];
            let verdict = machine.take_back(guest, number(words)?, &mut room)?;
            match verdict {
                ReturnVerdict::Released { .. } => hexadecimal(&format!("{verdict}\n"), &room),
                _ => verdict.to_string(),
            }
        }
        Some("count") => format!("totals {}", machine.count(guest)?),
        Some("store") => {
            let (ppn, at) = (number(words)?, number(words)?);
            machine.store(guest, ppn, at, &bytes(words)?)?.to_string()
        }
        Some("load") => {
            let (ppn, at) = (number(words)?, number(words)?);
            let mut room = vec![0; usize::try_from(number(words)?)?];
            match machine.load(guest, ppn, at, &mut room)? {
                LoadVerdict::NoPage => "no-page".to_owned(),
                LoadVerdict::Bytes => hexadecimal("bytes ", &room),
            }
        }
        _ => return Err("an unknown request".into()),
    })
}

/// Lends that wait for the end of their list: guests, pages and bytes.
type Waiting = Vec<(u32, u32, Box<Page>)>;

/// Lends what waits, and writes the verdicts.
fn lend(machine: &mut Machine, waiting: &mut Waiting, out: &mut impl Write) -> Done<()> {
    let pages: Vec<Lending<'_>> = waiting
        .iter()
        .map(|(guest, ppn, page)| Lending::new(*guest, *ppn, page))
        .collect();
    for (lending, verdict) in pages.iter().zip(machine.lend_many(&pages)) {
        writeln!(out, "{} {}", lending.guest(), verdict?)?;
    }
    waiting.clear();
    Ok(())
}

/// Gives back each frame that no page has.
fn give_back(machine: &mut Machine, frames: u32, guests: &[Guest]) -> Done<()> {
    let mut free: Vec<bool> = vec![true; usize::try_from(frames)?];
    for (guest, shape) in (0..).zip(guests) {
        for ppn in 0..shape.pages {
            if let Some(frame) = machine.frame(guest, ppn)? {
                free[usize::try_from(frame)?] = false;
            }
        }
    }
    for frame in (0..frames)
        .zip(free)
        .filter_map(|(frame, free)| free.then_some(frame))
    {
        machine.give_back(frame)?;
    }
    Ok(())
}

fn main() -> Done<()> {
    let in_region = std::env::args().nth(1).as_deref() == Some("region");
    let text = io::read_to_string(io::stdin())?;
    let mut out = BufWriter::new(io::stdout().lock());
    let mut lines = text
        .lines()
        .skip(1)
        .map(str::split_ascii_whitespace)
        .peekable();
    let mut header = |name: &str| -> Done<Option<Vec<u32>>> {
        match lines.next_if(|words| words.clone().next() == Some(name)) {
            None => Ok(None),
            Some(mut words) => {
                words.next();
                Ok(Some(numbers(words)?))
            }
        }
    };
    let frames = header("frames")?
        .and_then(|frames| frames.first().copied())
        .ok_or("no frames")?;
    let pages = header("pages")?.ok_or("no pages")?;
    let salts = header("salts")?.unwrap_or_else(|| vec![0; pages.len()]);
    let guests: Vec<Guest> = pages
        .iter()
        .zip(&salts)
        .map(|(&pages, &salt)| Guest { pages, salt })
        .collect();
    let mut builder = Machine::builder(frames, &guests);
    if in_region {
        builder = builder.region(Region::new(frames)?);
    }
    let (mut machine, mut waiting) = (builder.build()?, Waiting::new());
    for mut words in lines {
        let guest = match words.next() {
            None | Some("end") => break,
            Some(guest) => guest.parse()?,
        };
        if in_region && words.clone().next() == Some("lend") {
            words.next();
            waiting.push((guest, number(&mut words)?, page(&mut words)?));
            continue;
        }
        lend(&mut machine, &mut waiting, &mut out)?;
        let verdict = serve(&mut machine, guest, &mut words)?;
        writeln!(out, "{guest} {verdict}")?;
        if in_region {
            give_back(&mut machine, frames, &guests)?;
        }
    }
    lend(&mut machine, &mut waiting, &mut out)?;
    writeln!(out, "report {}", machine.report())?;
    Ok(out.flush()?)
}
