//! Many threads share one kernel, each through a seat.
use histar::trusted::{session_at, Thread};
use histar::{label, Call, Entry, Limits, Log, Object, Refusal, Refused, Reply, Seat};
use std::sync::atomic::{AtomicU64, Ordering};

const BOOT: Thread = Thread::BOOT;

fn create() -> Call<'static> {
    Call::SegmentCreate { container: Object::ROOT, label: label! { L1 }.into(), quota: 2, pages: 1 }
}

fn made(reply: Result<Reply, Refused>) -> Object {
    match reply {
        Ok(Reply::Object(id)) => id,
        other => panic!("{other:?}"),
    }
}

fn number_in(seat: &Seat, entry: Entry) -> u64 {
    match seat.call(BOOT, &Call::SegmentRead { entry, offset: 0, count: 8 }) {
        Ok(Reply::Bytes(bytes)) => u64::from_le_bytes(bytes[..].try_into().unwrap()),
        other => panic!("{other:?}"),
    }
}

#[test]
fn all_seats_see_what_each_wrote() {
    let first = Seat::share(1024, 400).unwrap();
    std::thread::scope(|scope| {
        for _ in 0..4 {
            let seat = first.another().unwrap();
            scope.spawn(move || {
                for _ in 0..50 {
                    let id = made(seat.call(BOOT, &create()));
                    let write = Call::SegmentWrite {
                        entry: Entry::in_root(id),
                        offset: 0,
                        bytes: id.0.to_le_bytes().to_vec().into(),
                    };
                    assert_eq!(seat.call(BOOT, &write), Ok(Reply::Done));
                }
            });
        }
    });
    let last = first.another().unwrap();
    for id in 4..204 {
        assert_eq!(number_in(&first, Entry::in_root(Object(id))), id);
        assert_eq!(number_in(&last, Entry::in_root(Object(id))), id);
    }
}

/// A reader that is told of a write, by an ordinary number in memory, reads that write or a later one.
#[test]
fn no_read_is_stale() {
    let writer = Seat::share(64, 30_000).unwrap();
    let entry = Entry::in_root(made(writer.call(BOOT, &create())));
    let written = AtomicU64::new(0);
    const LAST: u64 = 20_000;
    std::thread::scope(|scope| {
        for _ in 0..3 {
            let seat = writer.another().unwrap();
            let written = &written;
            scope.spawn(move || {
                let mut seen = 0;
                while seen < LAST {
                    let told = written.load(Ordering::SeqCst);
                    seen = number_in(&seat, entry);
                    assert!(told <= seen, "told of {told}, read {seen}");
                }
            });
        }
        for number in 1..=LAST {
            let bytes = number.to_le_bytes().to_vec().into();
            writer.call(BOOT, &Call::SegmentWrite { entry, offset: 0, bytes }).unwrap();
            written.store(number, Ordering::SeqCst);
        }
    });
}

/// Two readers that are told by each other: of two reads one after the other, the second sees no less.
#[test]
fn no_read_goes_back() {
    let writer = Seat::share(64, 30_000).unwrap();
    let entry = Entry::in_root(made(writer.call(BOOT, &create())));
    let last = AtomicU64::new(0);
    const LAST: u64 = 20_000;
    std::thread::scope(|scope| {
        for _ in 0..3 {
            let seat = writer.another().unwrap();
            let last = &last;
            scope.spawn(move || {
                while last.load(Ordering::SeqCst) < LAST {
                    let told = last.load(Ordering::SeqCst);
                    let read = number_in(&seat, entry);
                    assert!(told <= read, "another read {told} before, read {read}");
                    last.fetch_max(read, Ordering::SeqCst);
                }
            });
        }
        for number in 1..=LAST {
            let bytes = number.to_le_bytes().to_vec().into();
            writer.call(BOOT, &Call::SegmentWrite { entry, offset: 0, bytes }).unwrap();
        }
    });
}

fn write(seat: &Seat, entry: Entry, number: u64) {
    let write = Call::SegmentWrite { entry, offset: 0, bytes: number.to_le_bytes().to_vec().into() };
    assert_eq!(seat.call(BOOT, &write), Ok(Reply::Done));
}

/// Four threads read one seat at once, in the state that it had seen, whatever is written meanwhile. It sees that once they are done.
#[test]
fn readers_of_one_seat_read_at_once() {
    let mut seat = Seat::share(64, u64::MAX).unwrap();
    let entry = Entry::in_root(made(seat.call(BOOT, &create())));
    write(&seat, entry, 7);
    let writer = seat.another().unwrap();
    let view = seat.view();
    let readers: Vec<_> = (0..4).map(|_| view.reader().unwrap()).collect();
    std::thread::scope(|scope| {
        for reader in readers {
            scope.spawn(move || {
                for _ in 0..20_000 {
                    assert_eq!(reader.session().segment_read(entry, 0, 8).unwrap(), 7u64.to_le_bytes());
                }
                assert_eq!(reader.call(BOOT, &create()).unwrap_err().reason, Refusal::BadBatch);
            });
        }
        for number in 8..2000 {
            write(&writer, entry, number);
        }
    });
    assert_eq!(number_in(&seat, entry), 1999);
}

/// What is written stands in one dump: that since a seat which stood still meanwhile.
#[test]
fn each_call_stands_in_one_dump() {
    let seat = Seat::share(64, 300).unwrap();
    let entry = Entry::in_root(made(seat.call(BOOT, &create())));
    let mut older = seat.another().unwrap();
    let mut dumped = Vec::new();
    for round in 0..5 {
        for number in 0..200 {
            write(&seat, entry, 200 * round + number);
        }
        let mut text = Vec::new();
        seat.dump_since(&older, &mut text).unwrap();
        let text = String::from_utf8(text).unwrap();
        dumped.extend(
            text.lines()
                .filter(|line| line.starts_with("event "))
                .map(|line| line.split(" => ").next().unwrap()[8..].to_owned()),
        );
        older = seat.another().unwrap();
    }
    assert_eq!(dumped.len(), 1000);
    let other = Seat::share(64, 1).unwrap();
    assert_eq!(seat.dump_since(&other, &mut Vec::new()).unwrap_err().to_string(), "dump_since: 48 OtherList");
    assert!(older.dump_since(&seat, &mut Vec::new()).is_ok());
    write(&seat, entry, 1);
    assert!(older.dump_since(&seat, &mut Vec::new()).is_err());
}

/// A number into two segments at once, with a call between that is refused.
fn write_both(seat: &Seat, both: [Entry; 2], number: u64) {
    let [first, second] =
        both.map(|entry| Call::SegmentWrite { entry, offset: 0, bytes: number.to_le_bytes().to_vec().into() });
    let unref = Call::Unref { entry: Entry::in_root(Object::ROOT) };
    let refused = Refused::call(&unref, Refusal::RootKept);
    let replies = seat.batch(BOOT, &[first, unref, second]).unwrap();
    assert_eq!(replies, [Ok(Reply::Done), Err(refused), Ok(Reply::Done)]);
}

/// Threads that write and read at once: each id is given once, each sees its own write, no batch is seen in part, and a seat that comes
/// late is in the state of the others. The dumps of two seats that have seen as much are one text.
#[test]
fn a_storm_is_one_history() {
    const THREADS: usize = 8;
    const ROUNDS: u64 = 1_000;
    let boot = Seat::share_with(&Limits::pages(128), u64::MAX, Log::Whole).unwrap();
    let segment = || Entry::in_root(made(boot.call(BOOT, &create())));
    let own: Vec<[Entry; 3]> = (0..THREADS).map(|_| [segment(), segment(), segment()]).collect();
    let threads: Vec<_> = (0..THREADS).map(|at| (boot.another().unwrap(), own[at], own[(at + 1) % THREADS])).collect();
    let threads: Vec<_> = threads
        .into_iter()
        .map(|(seat, [entry, left, right], [_, others_left, others_right])| {
            std::thread::spawn(move || {
                let mut ids = Vec::new();
                for round in 0..ROUNDS {
                    let session = seat.session();
                    let id = session.segment_create(Object::ROOT, &label! { L1 }, 1, 0).unwrap();
                    session.unref(Entry::in_root(id)).unwrap();
                    session.segment_write(entry, 0, &round.to_le_bytes()).unwrap();
                    assert_eq!(number_in(&seat, entry), round);
                    write_both(&seat, [left, right], round);
                    assert_eq!([left, right].map(|entry| number_in(&seat, entry)), [round; 2]);
                    // (the other's numbers rise, and it writes both at once)
                    let read_first = number_in(&seat, others_left);
                    assert!(read_first <= number_in(&seat, others_right));
                    ids.push(id.0);
                }
                ids
            })
        })
        .collect();
    let mut ids: Vec<u64> = threads.into_iter().flat_map(|it| it.join().unwrap()).collect();
    ids.sort_unstable();
    let first = 4 + 3 * THREADS as u64;
    assert!(ids.into_iter().eq(first..first + THREADS as u64 * ROUNDS));
    let late = boot.another().unwrap();
    for entry in own.into_iter().flatten() {
        assert_eq!(number_in(&late, entry), ROUNDS - 1);
        assert_eq!(number_in(&boot, entry), ROUNDS - 1);
    }
    late.learn(boot.seen()).unwrap();
    let dump = late.dump().unwrap();
    assert!(dump == boot.dump().unwrap());
    assert!(dump.contains("batch") && dump.ends_with("end\n"));
}

/// What is no batch makes no call: not of no calls, not of 17, and not where one of them is none.
#[test]
fn what_is_no_batch_is_not_made() {
    let seat = Seat::share(64, u64::MAX).unwrap();
    let before = seat.seen();
    let long = Call::DevSend { entry: Entry::in_root(Object(3)), bytes: vec![0; 65].into() };
    assert_eq!(seat.batch(BOOT, &[]).unwrap_err().reason, Refusal::BadBatch);
    assert_eq!(seat.batch(BOOT, &vec![Call::CatCreate; 17]).unwrap_err().reason, Refusal::BadBatch);
    assert_eq!(seat.batch(BOOT, &[Call::CatCreate, Call::SelfGet]).unwrap_err().reason, Refusal::BadBatch);
    assert_eq!(seat.batch(BOOT, &[Call::CatCreate, long]).unwrap_err().reason, Refusal::BadBatch);
    assert_eq!(seat.seen(), before);
    assert_eq!(seat.batch(BOOT, &vec![Call::CatCreate; 16]).unwrap().len(), 16);
    assert_ne!(seat.seen(), before);
}

/// A batch counts as one call of the list, which has room for 512 of a seat that makes none, and its calls are answered one after another.
#[test]
fn a_batch_is_one_of_the_list() {
    let first = Seat::share(64, 1).unwrap();
    let second = first.another().unwrap();
    let replies = first.batch(BOOT, &[create(), create()]).unwrap();
    assert_eq!(replies, [Ok(Reply::Object(Object(4))), Ok(Reply::Object(Object(5)))]);
    let refused = Call::Unref { entry: Entry::in_root(Object::ROOT) };
    for _ in 1..512 {
        first.batch(BOOT, &[refused.clone(), refused.clone()]).unwrap();
    }
    assert_eq!(first.batch(BOOT, &[Call::CatCreate]).unwrap_err().reason, Refusal::ListFull);
    assert_eq!(first.call(BOOT, &Call::CatCreate).unwrap_err().reason, Refusal::ListFull);
    assert_eq!(number_in(&second, Entry::in_root(Object(5))), 0);
    assert!(first.batch(BOOT, &[Call::CatCreate]).is_ok());
}

/// A list with a log gives nothing back, and is full at its bound. One without a log has no dump.
#[test]
fn a_log_keeps_each_call() {
    let first = Seat::share_with(&Limits::pages(64), 1, Log::Whole).unwrap();
    let refused = Call::Unref { entry: Entry::in_root(Object::ROOT) };
    for _ in 0..512 {
        assert_eq!(first.call(BOOT, &refused).unwrap_err().reason, Refusal::RootKept);
    }
    assert_eq!(first.call(BOOT, &refused).unwrap_err().reason, Refusal::ListFull);
    let second = first.another().unwrap();
    let dump = first.dump().unwrap();
    assert!(second.dump().unwrap() == dump);
    assert_eq!(dump.matches("RootKept").count(), 512);
    assert_eq!(Seat::share(64, 1).unwrap().dump().unwrap_err().reason, Refusal::BadBatch);
}

#[test]
fn a_refused_call_stands_in_the_list_too() {
    let first = Seat::share_with(&Limits::pages(8), 3, Log::Whole).unwrap();
    let second = first.another().unwrap();
    let large = Call::SegmentCreate { container: Object::ROOT, label: label! { L1 }.into(), quota: 9, pages: 1 };
    assert_eq!(first.call(BOOT, &large).unwrap_err().reason, Refusal::NoQuota);
    assert_eq!(made(second.call(BOOT, &create())), Object(4));
    assert_eq!(made(first.call(BOOT, &create())), Object(5));
    assert_eq!(number_in(&second, Entry::in_root(Object(5))), 0);
    assert!(second.dump().unwrap().contains("NoQuota"));
}

#[test]
fn a_note_is_learned_and_one_of_another_is_refused() {
    let (first, other) = (Seat::share(64, 10).unwrap(), Seat::share(64, 10).unwrap());
    let second = first.another().unwrap();
    first.call(BOOT, &create()).unwrap();
    let note = first.seen();
    assert_ne!(second.seen(), note);
    second.learn(note).unwrap();
    assert_eq!(second.seen(), note);
    let before = other.seen();
    assert_eq!(other.learn(note).unwrap_err().reason, Refusal::OtherList);
    assert_eq!(other.seen(), before);
}

#[test]
fn limits_are_refused_at_the_boot() {
    assert_eq!(Seat::share(7, 10).unwrap_err().reason, Refusal::BadLimits);
}

#[test]
fn a_session_is_of_one_seat_and_any_thread() {
    let first = Seat::share(64, 10).unwrap();
    let second = first.another().unwrap();
    let made = first.session().thread_create(Object::ROOT, &label! { L1 }, 1, &label! { L2 }, 0).unwrap().id();
    let other = session_at(&second, made.into());
    assert_eq!(other.self_get().unwrap().label, label! { L1 });
    assert_eq!(session_at(&second, Thread(99)).self_get().unwrap_err().reason, Refusal::Halted);
}
