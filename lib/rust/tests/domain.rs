//! Domains: each call and each error, and random calls beside a shadow.
use pageshare::{
    fingerprint, Client, Domain, DomainConfig, DomainError, DomainReport, HashKind, LendError,
    Loan, NoRoom, Page, Question, Region, PAGE_BYTES,
};
use std::collections::HashMap;
use std::error::Error;
use std::fs::File;
use std::os::unix::fs::FileExt;

fn config(machines: u32, slots: u32, frames: u32, clients: u32) -> DomainConfig {
    DomainConfig {
        machines,
        slots,
        frames,
        clients,
        recent: 8,
        hash: HashKind::Fold,
        salt: 7,
        seed: 9,
    }
}

#[test]
fn makes() {
    let recent = |recent| DomainConfig {
        recent,
        ..config(1, 1, 2, 1)
    };
    for (config, fault) in [
        (config(0, 0, 0, 0), DomainError::Machines),
        (config(65, 1, 2, 1), DomainError::Machines),
        (config(1, 0, 0, 0), DomainError::Slots),
        (config(1, 1_048_577, 2, 1), DomainError::Slots),
        (config(1, 1, 1, 0), DomainError::Frames),
        (config(1, 1, 1_048_577, 1), DomainError::Frames),
        (config(1, 1, 2, 0), DomainError::Clients),
        (config(1, 1, 2, 65_537), DomainError::Clients),
        (recent(0), DomainError::Recent),
        (recent(16_777_217), DomainError::Recent),
    ] {
        assert_eq!(Domain::new(&config).map(|_| ()), Err(fault));
    }
    let made = Domain::new(&config(64, 1, 2, 1)).map(|domain| domain.report());
    let empty = DomainReport {
        machines: 64,
        ..DomainReport::default()
    };
    assert_eq!(made, Ok(empty));
}

#[test]
fn takes_a_region() -> Result<(), Box<dyn Error>> {
    let small = Domain::in_region(&config(2, 1, 2, 1), Region::new(3)?);
    assert_eq!(small.map(|_| ()), Err(DomainError::Region));
    let domain = Domain::in_region(&config(2, 1, 2, 1), Region::new(5)?)?;
    assert_eq!(domain.region().map(Region::frames), Some(5));
    assert!(domain.give_back(5).is_err());
    assert!(Domain::new(&config(1, 1, 2, 1))?.give_back(0).is_err());
    let mut client = domain.enter()?;
    let loan = client.lend(&[1; PAGE_BYTES])?;
    let frame = loan.frame;
    let fault = domain.give_back(frame).map_err(|error| error.kind());
    assert_eq!(fault, Err(std::io::ErrorKind::InvalidInput));
    assert_eq!(client.release(loan), Ok(Some(frame)));
    domain.give_back(frame)?;
    let frame = client.lend(&[2; PAGE_BYTES])?.frame;
    assert!(domain.give_back(frame).is_err());
    client.leave(|freed| assert_eq!(freed, frame));
    Ok(domain.give_back(frame)?)
}

#[test]
fn lends_and_releases() -> Result<(), Box<dyn Error>> {
    let domain = Domain::new(&config(1, 3, 3, 2))?;
    let (mut one, mut two) = (domain.enter()?, domain.enter()?);
    assert_eq!((one.number(), two.number()), (0, 1));
    assert_eq!(domain.enter().map(|_| ()), Err(NoRoom));
    let pages = [[1; PAGE_BYTES], [2; PAGE_BYTES], [3; PAGE_BYTES]];
    let (first, other) = (one.lend(&pages[0])?, two.lend(&pages[1])?);
    assert_ne!(first.frame, other.frame);
    assert_eq!(two.lend(&pages[2]), Err(LendError::NoFrame));
    let same = two.lend(&pages[0])?;
    assert_eq!((same.frame, same.sharers), (first.frame, 2));
    assert_eq!(one.lend(&pages[0]), Err(LendError::NoSlot));
    let frame = first.frame;
    let first = match two.release(first) {
        Err(loan) => loan,
        Ok(_) => return Err("another client's loan was released".into()),
    };
    assert_eq!(one.release(first), Ok(None));
    let mut freed = Vec::new();
    two.leave(|frame| freed.push(frame));
    freed.sort_unstable();
    let mut wanted = [frame, other.frame];
    wanted.sort_unstable();
    assert_eq!(freed, wanted);
    assert_eq!(domain.report().clients, 1);
    assert_eq!(domain.enter().map(|client| client.number()), Ok(1));
    Ok(())
}

#[test]
fn sees() -> Result<(), Box<dyn Error>> {
    let domain = Domain::new(&config(1, 1, 2, 2))?;
    let (mut one, mut two) = (domain.enter()?, domain.enter()?);
    let ask = |page| Question {
        page,
        fingerprint: fingerprint(1, &[1; PAGE_BYTES]),
    };
    assert_eq!(one.seen(&[ask(1), ask(1), ask(2)]), [false, false, true]);
    assert_eq!(two.seen(&[ask(1)]), [true]);
    assert_ne!(
        fingerprint(1, &[1; PAGE_BYTES]),
        fingerprint(2, &[1; PAGE_BYTES])
    );
    Ok(())
}

/// A sequence of numbers that looks random.
struct Numbers(u64);

impl Numbers {
    fn below(&mut self, limit: usize) -> usize {
        self.0 ^= self.0 << 13;
        self.0 ^= self.0 >> 7;
        self.0 ^= self.0 << 17;
        (self.0 >> 33) as usize % limit
    }
}

/// Contents of which each second one differs from the one before it in its last byte alone.
fn content(number: usize) -> Page {
    let mut page = [(number / 2) as u8; PAGE_BYTES];
    if number % 2 == 1 {
        page[PAGE_BYTES - 1] = 200;
    }
    page
}

/// A client, and what it has lent, with the content of each.
struct Member<'a> {
    client: Client<'a>,
    lent: Vec<(Loan, usize)>,
}

/// What the frames in use hold, and how many loans have each.
#[derive(Default)]
struct Frames(HashMap<u32, (usize, u32)>);

impl Frames {
    fn lend(&mut self, loan: &Loan, content: usize) {
        let equal = self.0.iter().find(|(_, held)| held.0 == content);
        let known = equal.map(|(&frame, _)| frame);
        assert!(
            known == Some(loan.frame) || (known.is_none() && !self.0.contains_key(&loan.frame))
        );
        let held = self.0.entry(loan.frame).or_insert((content, 0));
        held.1 += 1;
        assert_eq!(loan.sharers, held.1);
    }

    /// Gives one loan of a frame up, and returns whether the frame is free since.
    fn give_up(&mut self, frame: u32) -> bool {
        let Some(held) = self.0.get_mut(&frame) else {
            panic!("frame {frame} isn't in use");
        };
        held.1 -= 1;
        let free = held.1 == 0;
        if free {
            self.0.remove(&frame);
        }
        free
    }

    fn check(&self, file: &File) {
        let mut page = [0; PAGE_BYTES];
        for (&frame, &(number, _)) in &self.0 {
            let at = u64::from(frame) * PAGE_BYTES as u64;
            assert!(file.read_exact_at(&mut page, at).is_ok() && page == content(number));
        }
    }
}

fn lend(frames: &mut Frames, member: &mut Member<'_>, number: usize) {
    match member.client.lend(&content(number)) {
        Ok(loan) => {
            frames.lend(&loan, number);
            member.lent.push((loan, number));
        }
        Err(LendError::NoFrame) => assert!(frames.0.values().all(|held| held.0 != number)),
        Err(fault) => assert_eq!(fault, LendError::NoSlot),
    }
}

fn release(frames: &mut Frames, member: &mut Member<'_>, domain: &Domain, numbers: &mut Numbers) {
    if member.lent.is_empty() {
        return;
    }
    let (loan, _) = member.lent.swap_remove(numbers.below(member.lent.len()));
    let frame = loan.frame;
    let freed = frames.give_up(frame).then_some(frame);
    assert_eq!(member.client.release(loan), Ok(freed));
    if let Some(frame) = freed {
        assert!(domain.give_back(frame).is_ok());
    }
}

fn leave(frames: &mut Frames, member: Member<'_>, numbers: &mut Numbers) {
    let mut wanted: Vec<u32> = Vec::new();
    for (loan, _) in member.lent {
        if frames.give_up(loan.frame) {
            wanted.push(loan.frame);
        }
    }
    if numbers.below(2) == 0 {
        drop(member.client);
        return;
    }
    let mut freed = Vec::new();
    member.client.leave(|frame| freed.push(frame));
    freed.sort_unstable();
    wanted.sort_unstable();
    assert_eq!(freed, wanted);
}

fn run(seed: u64) -> Result<(), Box<dyn Error>> {
    let mut numbers = Numbers(seed * 2 + 1);
    let sizes = config(
        1 + numbers.below(4) as u32,
        1 + numbers.below(40) as u32,
        2 + numbers.below(30) as u32,
        1 + numbers.below(30) as u32,
    );
    let region = Region::new(sizes.machines * sizes.frames)?;
    let file = region.open_read_only()?;
    let domain = Domain::in_region(&sizes, region)?;
    let (mut members, mut frames): (Vec<Member<'_>>, Frames) = (Vec::new(), Frames::default());
    let kinds = 2 + numbers.below(60);
    for _ in 0..150 {
        let kind = numbers.below(100);
        if members.is_empty() || kind < 12 {
            match domain.enter() {
                Ok(client) => members.push(Member {
                    client,
                    lent: Vec::new(),
                }),
                Err(NoRoom) => assert_eq!(members.len(), sizes.clients as usize),
            }
            continue;
        }
        let which = numbers.below(members.len());
        match kind {
            12..=64 => lend(&mut frames, &mut members[which], numbers.below(kinds)),
            65..=94 => release(&mut frames, &mut members[which], &domain, &mut numbers),
            _ => leave(&mut frames, members.swap_remove(which), &mut numbers),
        }
        frames.check(&file);
        let report = domain.report();
        assert_eq!(report.frames as usize, frames.0.len());
        assert_eq!(report.clients as usize, members.len());
        let lent: usize = members.iter().map(|member| member.lent.len()).sum();
        assert_eq!(report.slots as usize, lent);
    }
    drop(members);
    let report = domain.report();
    assert_eq!((report.clients, report.slots, report.frames), (0, 0, 0));
    Ok(())
}

#[test]
fn random_calls() -> Result<(), Box<dyn Error>> {
    for seed in 0..1000 {
        run(seed)?;
    }
    Ok(())
}
