//! Any words of any length: no panic, and a refused call changes no word.

use model::generator::{self, Kind};
use model::journal::{self, Machine, Record, Replay, Step};
use model::random::Random;
use model::tables::Space;
use model::{Hypercall, Status};

use crate::world::PLACES;

fn words(random: &mut Random, length: usize) -> Vec<u32> {
    let shift = random.below(32);
    (0..length).map(|_| random.word() >> shift).collect()
}

/// A length at or around one that matters, or any small one.
fn length(random: &mut Random, right: u32) -> usize {
    let length = match random.below(6) {
        0 => right + 1,
        1 => right - 1,
        2 => right + 4 * random.below(5),
        3 => random.below(right),
        _ => right,
    };
    length as usize
}

#[test]
fn junk_tables_of_any_length_are_refused_unchanged() {
    let mut random = Random::new(7);
    for _ in 0..1500 {
        let (place_words, object_words) = (length(&mut random, 12_288), length(&mut random, 320));
        let mut places = words(&mut random, place_words);
        let mut objects = words(&mut random, object_words);
        let (source_words, target_words) = (length(&mut random, 64), length(&mut random, 64));
        let source = words(&mut random, source_words);
        let mut target = words(&mut random, target_words);
        let mut list = words(&mut random, 10);
        let before = (
            places.clone(),
            objects.clone(),
            target.clone(),
            list.clone(),
        );
        let (number, caller) = (random.below(13), random.below(70));
        let arguments = [(); 6].map(|_| random.word());
        let reply = model::hypercall(
            number,
            caller,
            arguments,
            &mut places,
            &mut objects,
            &source,
            &mut target,
        );
        assert_eq!((reply.status, reply.answer), (Status::Damaged, 0));
        let reply = model::census(random.below(3200), &places, &objects, &mut list);
        assert_eq!((reply.status, reply.answer), (Status::Damaged, 0));
        assert!(before == (places.clone(), objects.clone(), target, list));
        assert!(!model::is_sound(&places, &objects));
        assert!(model::damage(&places, &objects).is_some());
        assert!(model::untyped(&source).len() <= 60);
    }
}

/// Runs a random call on sound tables; checks that a refusal changes nothing.
fn try_call(machine: &mut Machine, random: &mut Random, refused: &mut [u32; 20]) {
    let before = machine.clone();
    let (source_words, target_words) = (length(random, 64), length(random, 64));
    let mut source = words(random, source_words);
    let mut target = words(random, target_words);
    if let (Some(first), true) = (source.first_mut(), random.percent(70)) {
        *first = random.below(30) | random.below(18) << 16;
    }
    let target_before = target.clone();
    let source_before = source.clone();
    let number = if random.percent(90) {
        Hypercall::ALL[random.below(9) as usize].number()
    } else {
        random.below(200)
    };
    let caller = if random.percent(50) {
        29
    } else {
        random.below(70)
    };
    let mut arguments = [0; 6];
    for word in &mut arguments {
        *word = match random.below(4) {
            0 => random.below(4),
            1 => random.below(Space::Object.selectors()),
            2 => {
                random.below(Space::Object.selectors()) << 12
                    | random.below(9) << 7
                    | random.below(128)
            }
            _ => random.word() >> random.below(32),
        };
    }
    let reply = model::hypercall(
        number,
        caller,
        arguments,
        &mut machine.places,
        &mut machine.objects,
        &source,
        &mut target,
    );
    assert!(reply.status != Status::Damaged && reply.status != Status::Short);
    assert_eq!(source, source_before);
    if reply.status != Status::Success {
        assert_eq!(reply.answer, 0);
        assert!(machine.places == before.places && machine.objects == before.objects);
        assert_eq!(target, target_before);
    }
    if number != Hypercall::Call.number() {
        assert_eq!(target, target_before);
    }
    assert!(model::is_sound(&machine.places, &machine.objects));
    refused[reply.status.number() as usize] += 1;
}

#[test]
fn random_calls_keep_tables_sound_and_refusals_change_nothing() {
    let mut random = Random::new(99);
    let mut seen = [0; 20];
    for seed in 0..30 {
        let bytes = generator::journal(Kind::ALL[seed as usize % 3], seed, 120);
        let mut replay = Replay::new(&bytes);
        while let Step::Ran(..) = replay.step() {}
        for _ in 0..800 {
            try_call(&mut replay.machine, &mut random, &mut seen);
        }
    }
    for status in [0, 1, 3, 4, 5, 7, 16, 18] {
        assert!(seen[status] > 0, "status {status} was never met");
    }
}

#[test]
fn refused_censuses_change_nothing() {
    let mut random = Random::new(5);
    let mut seen = [0; 20];
    for seed in 0..10 {
        let bytes = generator::journal(Kind::Deep, seed, 150);
        let mut replay = Replay::new(&bytes);
        while let Step::Ran(..) = replay.step() {}
        let machine = &replay.machine;
        for _ in 0..1000 {
            let list_words = random.below(6) as usize;
            let mut list = vec![0xffff; list_words];
            let reply = model::census(
                random.below(3200),
                &machine.places,
                &machine.objects,
                &mut list,
            );
            seen[reply.status.number() as usize] += 1;
            if reply.status == Status::Success {
                let count = reply.answer as usize;
                assert!(list[..count].iter().all(|&place| place < PLACES));
                assert!(list[count..].iter().all(|&word| word == 0xffff));
            } else {
                assert!(list.iter().all(|&word| word == 0xffff));
                assert_eq!(
                    reply.answer as usize > list_words,
                    reply.status == Status::Short
                );
            }
        }
    }
    for status in [
        Status::Success,
        Status::BadCap,
        Status::BadPar,
        Status::Short,
    ] {
        assert!(
            seen[status.number() as usize] > 0,
            "{status:?} was never met"
        );
    }
}

#[test]
fn any_bytes_are_a_journal() {
    let mut random = Random::new(3);
    let (mut cuts, mut bads, mut whole) = (0, 0, 0);
    for _ in 0..2000 {
        let length = random.below(600);
        let mut bytes: Vec<u8> = (0..length)
            .map(|_| random.word() as u8 >> random.below(8))
            .collect();
        if let (Some(first), true) = (bytes.first_mut(), random.percent(70)) {
            *first = Hypercall::ALL[random.below(9) as usize].number() as u8;
        }
        let lines = journal::lines(&bytes);
        let lines: Vec<&str> = lines.lines().collect();
        let (end, rest) = lines.split_last().expect("a last line");
        let done = rest
            .iter()
            .filter(|line| line.split(' ').count() == 4)
            .count();
        assert_eq!(*end, format!("end {done}"));
        whole += done;
        match rest.get(done) {
            Some(&"cut") => cuts += 1,
            Some(line) => {
                assert!(line.starts_with("bad "), "{line}");
                bads += 1;
            }
            None => assert!(bytes.is_empty() || done > 0),
        }
        assert!(rest.len() <= done + 1);
    }
    assert!(cuts > 0 && bads > 0 && whole > 0);
}

#[test]
fn records_are_read_as_they_were_written() {
    let mut random = Random::new(17);
    for hypercall in Hypercall::ALL {
        let mut record = Record::empty(hypercall);
        record.caller = random.word();
        record.arguments[..journal::argument_count(hypercall)].fill_with(|| random.word());
        if hypercall == Hypercall::Call {
            record.source.fill_with(|| random.word());
            record.target.fill_with(|| random.word());
        }
        let mut bytes = Vec::new();
        record.write(&mut bytes);
        assert_eq!(bytes.len(), 1 + journal::body_bytes(hypercall));
        bytes.push(77);
        let mut read = Record::empty(Hypercall::Lookup);
        assert_eq!(read.read(&bytes), Ok(&[77][..]));
        assert!(read == record);
    }
}
