//! Three clients with 10,000 pages lend those that another page is equal to, and one of them leaves: what `examples/domain.c` does, in
//! Rust. Every page that is lent is read through a file that is open for reading alone.
use pageshare::{
    fingerprint, Client, Domain, DomainConfig, HashKind, Loan, Page, Question, Region, PAGE_BYTES,
};
use std::error::Error;
use std::fs::File;
use std::os::unix::fs::{FileExt, MetadataExt};

const CLIENTS: u32 = 3;
const PAGES: u32 = 10_000;
const FRAMES: u32 = 5_000;
const MACHINES: u32 = 2;
const SALT: u32 = 41;

/// The content of a page. Page n is client n % 3's. Of nine pages in a row three are equal, one of each client; three are like no
/// other; and three are equal to a page of the same client nine pages on.
fn content(n: u32) -> Page {
    let number = match n / 3 % 3 {
        0 => n / 9,
        1 => PAGES + n,
        _ => 2 * PAGES + n / 18 * CLIENTS + n % CLIENTS,
    };
    let mut page = [0; PAGE_BYTES];
    for word in page.chunks_exact_mut(4) {
        word.copy_from_slice(&number.to_ne_bytes());
    }
    page
}

/// A look of a client at its pages: it asks about those that aren't lent, and lends those that another page is equal to.
fn look(client: &mut Client<'_>, lent: &mut [Option<Loan>]) -> Result<(), Box<dyn Error>> {
    for n in (client.number()..PAGES).step_by(CLIENTS as usize) {
        let place = &mut lent[n as usize];
        if place.is_some() {
            continue;
        }
        let page = content(n);
        let question = Question {
            page: u64::from(n),
            fingerprint: fingerprint(SALT, &page),
        };
        if client.seen(&[question]) == [true] {
            *place = Some(client.lend(&page)?);
        }
    }
    Ok(())
}

/// Every page that is lent, each byte read from the file.
fn check_all(file: &File, lent: &[Option<Loan>]) -> Result<(), Box<dyn Error>> {
    let mut page = [0; PAGE_BYTES];
    for (n, loan) in (0..).zip(lent) {
        if let Some(loan) = loan {
            file.read_exact_at(&mut page, u64::from(loan.frame) * PAGE_BYTES as u64)?;
            if page != content(n) {
                return Err("a frame holds other bytes".into());
            }
        }
    }
    Ok(())
}

fn show(
    when: &str,
    domain: &Domain,
    file: &File,
    lent: &[Option<Loan>],
) -> Result<(), Box<dyn Error>> {
    check_all(file, lent)?;
    let report = domain.report();
    println!(
        "{when}: {} clients, {} pages lent, {} frames, {} reclaimed, the file holds {} pages",
        report.clients,
        report.slots,
        report.frames,
        report.reclaimed,
        file.metadata()?.blocks() * 512 / PAGE_BYTES as u64
    );
    Ok(())
}

fn main() -> Result<(), Box<dyn Error>> {
    let config = DomainConfig {
        machines: MACHINES,
        slots: PAGES,
        frames: FRAMES,
        clients: CLIENTS,
        recent: PAGES,
        hash: HashKind::Fold,
        salt: 7,
        seed: 9,
    };
    let region = Region::new(MACHINES * FRAMES)?;
    let file = region.open_read_only()?;
    let domain = Domain::in_region(&config, region)?;
    let mut lent: Vec<Option<Loan>> = (0..PAGES).map(|_| None).collect();
    let mut clients = (0..CLIENTS)
        .map(|_| domain.enter())
        .collect::<Result<Vec<_>, _>>()?;
    for when in ["looked once", "looked twice"] {
        for client in &mut clients {
            look(client, &mut lent)?;
        }
        show(when, &domain, &file, &lent)?;
    }
    for n in 0..18 {
        let Some(loan) = lent[n].take() else { continue };
        match clients[n % CLIENTS as usize].release(loan) {
            Ok(None) => {}
            Ok(Some(frame)) => domain.give_back(frame)?,
            Err(_) => return Err("release".into()),
        }
    }
    show("some written to", &domain, &file, &lent)?;
    for loan in lent.iter_mut().skip(1).step_by(CLIENTS as usize) {
        // its client leaves
        let _left = loan.take();
    }
    let mut given_back = Ok(());
    clients.remove(1).leave(|frame| {
        if given_back.is_ok() {
            given_back = domain.give_back(frame);
        }
    });
    given_back?;
    show("one has left", &domain, &file, &lent)
}
