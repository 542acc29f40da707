//! Each call on its happy path, and each error where it is due.
use pageshare::{
    Guest, HashKind, LendVerdict, Lending, LoadVerdict, Machine, MakeError, NoSuchPage,
    ProposeVerdict, Region, ReleaseVerdict, Report, RequestError, ReturnVerdict, StoreVerdict,
    PAGE_BYTES,
};

fn machine(frames: u32, shapes: &[(u32, u32)]) -> Result<Machine, MakeError> {
    let guests: Vec<Guest> = shapes
        .iter()
        .map(|&(pages, salt)| Guest { pages, salt })
        .collect();
    Machine::new(frames, &guests)
}

#[test]
fn makes() {
    let full = [(1, 7); 65];
    for (frames, shapes, fault) in [
        (0, &[(0, 0)][..], MakeError::Frames),
        (1_048_577, &full[..1], MakeError::Frames),
        (0, &full[..65], MakeError::Frames),
        (1, &[][..], MakeError::Guests),
        (1, &full[..65], MakeError::Guests),
        (1, &[(1, 0), (0, 0)][..], MakeError::Pages),
        (1, &[(1_048_576, 0), (1, 0)][..], MakeError::Pages),
    ] {
        assert_eq!(machine(frames, shapes).map(|_| ()), Err(fault));
    }
    assert_eq!(
        machine(1, &full[..64]).map(|made| made.report()),
        Ok(Report::default())
    );
    assert!(machine(1_048_576, &[(1_048_576, 0)]).is_ok());
}

#[test]
fn shares_and_copies() -> Result<(), Box<dyn std::error::Error>> {
    let mut m = machine(3, &[(2, 0), (1, 0)])?;
    for (guest, ppn) in [(0, 0), (0, 1), (1, 0)] {
        assert_eq!(m.store(guest, ppn, 0, b"A")?, StoreVerdict::Mapped);
    }
    assert_ne!(m.frame(0, 0)?, m.frame(1, 0)?);
    assert_eq!(m.propose(0, 0)?, ProposeVerdict::Hinted);
    assert_eq!(m.propose(0, 0)?, ProposeVerdict::Kept);
    assert_eq!(m.propose(0, 1)?, ProposeVerdict::Paired);
    assert_eq!(m.propose(1, 0)?, ProposeVerdict::Joined { pages: 3 });
    assert_eq!(m.propose(1, 0)?, ProposeVerdict::Already);
    assert_eq!(m.frame(0, 0)?, m.frame(1, 0)?);
    let mut room = [0xee; 4];
    assert_eq!(m.load(1, 0, 0, &mut room)?, LoadVerdict::Bytes);
    assert_eq!(room, [0x41, 0, 0, 0]);
    assert_eq!(m.store(1, 0, 4095, b"B")?, StoreVerdict::Copied);
    let mut page = [0xee; PAGE_BYTES];
    m.read(1, 0, &mut page)?;
    assert_eq!((page[0], page[1], page[4095]), (0x41, 0, 0x42));
    assert_eq!(m.page(1, 0)?, Some(&page));
    assert_eq!(m.release(0, 0)?, ReleaseVerdict::Released { freed: false });
    assert_eq!(m.store(0, 1, 0, b"A")?, StoreVerdict::Taken);
    assert_eq!(m.store(0, 1, 0, b"A")?, StoreVerdict::Stored);
    assert_eq!(m.release(0, 1)?, ReleaseVerdict::Released { freed: true });
    let totals = "mapped 1 shared 0 frames 1 reclaimed 0 hints 0";
    let report = m.count(1)?;
    assert_eq!(report.to_string(), format!("entries 15 {totals}"));
    m.hash_ahead(&[(0, 0), (1, 0), (0, 1), (0, 99), (256, 0), (1, 0)]);
    assert_eq!(m.report(), report);
    m.restart_count();
    assert_eq!(m.report().to_string(), format!("entries 0 {totals}"));
    assert_eq!(
        format!("{m:?}"),
        format!("Machine {{ report: {:?}, .. }}", m.report())
    );
    Ok(())
}

#[test]
fn refuses() -> Result<(), Box<dyn std::error::Error>> {
    let mut m = machine(1, &[(2, 0)])?;
    let (mut room, mut page) = ([0xee; 65], [0xee; PAGE_BYTES]);
    assert_eq!(m.propose(1, 0), Err(RequestError::NoGuest));
    assert_eq!(m.release(256, 0), Err(RequestError::NoGuest));
    assert_eq!(m.count(u32::MAX), Err(RequestError::NoGuest));
    assert_eq!(m.store(1, 0, 0, &[]), Err(RequestError::NoGuest));
    assert_eq!(m.store(0, 0, 4096, &[]), Err(RequestError::Length));
    assert_eq!(m.store(0, 0, 0, &room), Err(RequestError::Length));
    assert_eq!(m.store(0, 0, 4095, b"AB"), Err(RequestError::Crosses));
    assert_eq!(m.load(0, 0, 0, &mut []), Err(RequestError::Length));
    assert_eq!(m.load(0, 0, 0, &mut room), Err(RequestError::Length));
    assert_eq!(
        m.load(0, 0, u32::MAX, &mut room[..1]),
        Err(RequestError::Crosses)
    );
    assert_eq!(
        (m.read(0, 2, &mut page), m.frame(1, 0)),
        (Err(NoSuchPage), Err(NoSuchPage))
    );
    assert_eq!(m.page(0, u32::MAX), Err(NoSuchPage));
    assert_eq!((m.frame(0, 1)?, m.page(0, 1)?), (None, None));
    assert_eq!((room, page), ([0xee; 65], [0xee; PAGE_BYTES]));
    assert_eq!(m.report().entries, 0);
    assert_eq!(m.store(0, 0, 0, b"A")?, StoreVerdict::Mapped);
    assert_eq!(m.store(0, 1, 0, b"A")?, StoreVerdict::NoFrame);
    assert_eq!(m.store(0, 2, 0, b"A")?, StoreVerdict::NoPage);
    assert_eq!(m.load(0, 2, 0, &mut room[..1])?, LoadVerdict::NoPage);
    assert_eq!(m.propose(0, 1)?, ProposeVerdict::Unmapped);
    assert_eq!(m.release(0, 1)?, ReleaseVerdict::Unmapped);
    assert_eq!(m.release(0, 2)?, ReleaseVerdict::NoPage);
    Ok(())
}

#[test]
fn shares_by_either_hash() -> Result<(), Box<dyn std::error::Error>> {
    let guests = [Guest { pages: 1, salt: 7 }; 3];
    for hash in [HashKind::Sha256, HashKind::Fold, HashKind::WideSha256] {
        let mut m = Machine::with_hash(3, &guests, hash)?;
        let page = [0x5a; PAGE_BYTES];
        for guest in 0..3 {
            assert_eq!(m.store_page(guest, 0, &page)?, StoreVerdict::Mapped);
        }
        assert_eq!(m.propose(0, 0)?, ProposeVerdict::Hinted);
        assert_eq!(m.propose(1, 0)?, ProposeVerdict::Paired);
        assert_eq!(m.propose(2, 0)?, ProposeVerdict::Joined { pages: 3 });
    }
    assert!(matches!(
        Machine::with_hash(0, &guests, HashKind::Fold),
        Err(MakeError::Frames)
    ));
    Ok(())
}

#[test]
fn lends_and_takes_back() -> Result<(), Box<dyn std::error::Error>> {
    let mut m = machine(3, &[(1, 0), (1, 0)])?;
    let (ones, twos) = ([1; PAGE_BYTES], [2; PAGE_BYTES]);
    let mut room = [0xee; PAGE_BYTES];
    let LendVerdict::Lent(first) = m.lend(0, 0, &ones)? else {
        return Err("not lent".into());
    };
    assert_eq!(
        (first.proposal, first.freed),
        (ProposeVerdict::Hinted, None)
    );
    assert_eq!(m.frame(0, 0)?, Some(first.frame));
    assert_eq!(m.store_page(1, 0, &twos)?, StoreVerdict::Mapped);
    let own = m.frame(1, 0)?;
    let LendVerdict::Lent(second) = m.lend(1, 0, &ones)? else {
        return Err("not lent".into());
    };
    assert_eq!(
        (second.proposal, second.frame, second.freed),
        (ProposeVerdict::Paired, first.frame, own)
    );
    assert_eq!(
        m.take_back(0, 0, &mut room)?,
        ReturnVerdict::Released { freed: None }
    );
    assert_eq!(room, ones);
    assert_eq!(m.take_back(0, 0, &mut room)?, ReturnVerdict::Unmapped);
    assert_eq!(
        m.take_back(1, 0, &mut room)?,
        ReturnVerdict::Released {
            freed: Some(first.frame)
        }
    );
    assert_eq!(m.take_back(1, 1, &mut room)?, ReturnVerdict::NoPage);
    assert_eq!(m.lend(1, 1, &ones)?, LendVerdict::NoPage);
    assert_eq!(m.lend(2, 0, &ones), Err(RequestError::NoGuest));
    assert_eq!((room, m.report().frames), (ones, 0));
    Ok(())
}

#[test]
fn lends_lists_in_turn() -> Result<(), Box<dyn std::error::Error>> {
    let (ones, twos) = ([1; PAGE_BYTES], [2; PAGE_BYTES]);
    let lending = Lending::new;
    let wanted = [
        (0, 0, &ones),
        (1, 0, &ones),
        (2, 0, &ones),
        (0, 1, &ones),
        (0, 0, &twos),
        (0, 0, &twos),
        (1, 9, &twos),
        // (so that a group of eight and one of four are lent, and one page alone)
        (0, 0, &ones),
        (0, 1, &twos),
        (1, 0, &twos),
        (0, 1, &ones),
        (0, 0, &twos),
        (1, 0, &ones),
    ];
    let list = wanted.map(|(guest, ppn, page)| lending(guest, ppn, page));
    for hash in [HashKind::Sha256, HashKind::Fold, HashKind::WideSha256] {
        let guests = [Guest { pages: 2, salt: 0 }, Guest { pages: 1, salt: 0 }];
        let mut together = Machine::with_hash(3, &guests, hash)?;
        let mut alone = Machine::with_hash(3, &guests, hash)?;
        let verdicts = together.lend_many(&list);
        let singly = wanted.map(|(guest, ppn, page)| alone.lend(guest, ppn, page));
        assert_eq!(verdicts, singly);
        assert_eq!(together.report(), alone.report());
        assert_eq!(verdicts[2], Err(RequestError::NoGuest));
        assert_eq!(verdicts[6], Ok(LendVerdict::NoPage));
    }
    Ok(())
}

#[test]
fn goes_to_another_thread() -> Result<(), Box<dyn std::error::Error>> {
    let mut m = machine(1, &[(1, 0)])?;
    let _mapped = m.store(0, 0, 0, b"A")?;
    let there = std::thread::spawn(move || m.store(0, 0, 1, b"B").map(|verdict| (m, verdict)));
    let (mut m, verdict) = there.join().map_err(|_| "the thread failed")??;
    assert_eq!(verdict, StoreVerdict::Stored);
    let mut room = [0xee; 2];
    assert_eq!(
        (m.load(0, 0, 0, &mut room)?, room),
        (LoadVerdict::Bytes, *b"AB")
    );
    Ok(())
}

#[test]
fn frames_in_a_region() -> Result<(), Box<dyn std::error::Error>> {
    let guests = [Guest { pages: 3, salt: 9 }];
    let small = Machine::builder(3, &guests).region(Region::new(2)?).build();
    assert_eq!(small.err(), Some(MakeError::Region));
    assert_eq!(
        Region::new(0).map_err(|error| error.kind()).err(),
        Some(std::io::ErrorKind::InvalidInput)
    );
    let mut m = Machine::builder(3, &guests)
        .hash(HashKind::Fold)
        .region(Region::new(4)?)
        .build()?;
    let (ones, twos) = ([1; PAGE_BYTES], [2; PAGE_BYTES]);
    for (ppn, page) in [(0, &ones), (1, &twos), (2, &ones)] {
        let _lent = m.lend(0, ppn, page)?;
    }
    let file = m.region().ok_or("no region")?.open_read_only()?;
    for (ppn, page) in [(0, &ones), (1, &twos), (2, &ones)] {
        let frame = m.frame(0, ppn)?.ok_or("no frame")?;
        let mut room = [0xee; PAGE_BYTES];
        std::os::unix::fs::FileExt::read_exact_at(&file, &mut room, u64::from(frame) * 4096)?;
        assert_eq!(&room, page);
    }
    assert_eq!(m.frame(0, 0)?, m.frame(0, 2)?);
    assert!(std::io::Write::write(&mut &file, b"x").is_err());
    Ok(())
}

#[test]
fn displays() {
    assert_eq!(ProposeVerdict::Joined { pages: 3 }.to_string(), "joined 3");
    assert_eq!(
        ReleaseVerdict::Released { freed: false }.to_string(),
        "released held"
    );
    assert_eq!(
        RequestError::Crosses.to_string(),
        "a store or load stays within one page"
    );
    assert_eq!(
        MakeError::Guests.to_string(),
        "a machine has 1 to 64 guests"
    );
}

/// The frames of a machine in a region that can be given back are those that no page has, whatever gave or took them.
#[test]
fn gives_back_free_frames_alone() -> Result<(), Box<dyn std::error::Error>> {
    let guests = [Guest { pages: 3, salt: 0 }; 2];
    let mut m = Machine::builder(130, &guests)
        .region(Region::new(130)?)
        .build()?;
    let (ones, twos, mut room) = ([1; PAGE_BYTES], [2; PAGE_BYTES], [0; PAGE_BYTES]);
    let mut steps = 0;
    let mut looked_at = |m: &mut Machine| -> Result<(), Box<dyn std::error::Error>> {
        let mut used = Vec::new();
        for (guest, ppn) in (0..2).flat_map(|guest| (0..3).map(move |ppn| (guest, ppn))) {
            used.extend(m.frame(guest, ppn)?);
        }
        for frame in 0..130 {
            assert_eq!(
                m.give_back(frame).is_err(),
                used.contains(&frame),
                "step {steps}, frame {frame}"
            );
        }
        steps += 1;
        Ok(())
    };
    looked_at(&mut m)?;
    let _mapped = m.store(0, 0, 0, b"A")?;
    looked_at(&mut m)?;
    let _lent = m.lend(0, 0, &ones)?;
    let _paired = m.lend_many(&[
        Lending::new(1, 0, &ones),
        Lending::new(0, 1, &ones),
        Lending::new(1, 1, &twos),
        Lending::new(0, 2, &twos),
    ]);
    looked_at(&mut m)?;
    let _copied = m.store(0, 0, 0, b"B")?;
    looked_at(&mut m)?;
    let _stored = m.store_page(0, 0, &twos)?;
    let _joined = m.propose(0, 0)?;
    looked_at(&mut m)?;
    let _eight = m.lend_many(&[Lending::new(1, 2, &twos); 8]);
    looked_at(&mut m)?;
    for (guest, ppn) in [(0, 0), (0, 2), (1, 1)] {
        let _released = m.release(guest, ppn)?;
        looked_at(&mut m)?;
    }
    for (guest, ppn) in [(0, 1), (1, 0), (1, 2)] {
        let _returned = m.take_back(guest, ppn, &mut room)?;
        looked_at(&mut m)?;
    }
    assert_eq!(m.report().frames, 0);
    assert_eq!(
        m.give_back(130).map_err(|error| error.kind()),
        Err(std::io::ErrorKind::InvalidInput)
    );
    Ok(())
}

/// What may go to another thread, and what may be used by several: what the documents say, checked as this is compiled.
#[test]
fn threads() {
    fn goes<T: Send>() {}
    fn is_shared<T: Sync>() {}
    goes::<Machine>();
    goes::<Region>();
    is_shared::<Region>();
    goes::<pageshare::Builder<'_>>();
    goes::<Report>();
    is_shared::<Report>();
    goes::<LendVerdict>();
    is_shared::<LendVerdict>();
    goes::<MakeError>();
    is_shared::<MakeError>();
    goes::<RequestError>();
    is_shared::<RequestError>();
}

#[test]
fn says_what_it_links() {
    assert_eq!(pageshare::library_version(), "0.1.0");
    assert!(matches!(pageshare::library_level(), 2 | 3));
    assert!(pageshare::is_processor_supported());
}
