//! The log of the calls, and its dump.
use histar::{label, Entry, Keep, Kernel, Limits, Log, Object, Refusal, Refused, Seat};
use std::io::{self, ErrorKind, Write};

const ROOT: Object = Object::ROOT;

/// The lines of a dump that tell of calls.
fn events(dump: &str) -> Vec<&str> {
    dump.lines().filter(|line| line.starts_with("event ")).collect()
}

#[test]
fn each_write_call_is_an_event() {
    let kernel = Kernel::boot(64).unwrap();
    let boot = kernel.session();
    kernel.log_on(1000, Keep::Writes).unwrap();
    let c = boot.cat_create().unwrap();
    let secret = Entry::in_root(boot.segment_create(ROOT, &label! { c => L3; L1 }, 2, 1).unwrap());
    let stranger = boot.thread_create(ROOT, &label! { L1 }, 1, &label! { L2 }, 0).unwrap();
    boot.segment_write(secret, 0, b"key").unwrap();
    assert_eq!(stranger.segment_write(secret, 0, b"x").unwrap_err().reason, Refusal::CannotObserve);
    // (reads, refused or not, what is no call, and look-ups are no events)
    assert_eq!(stranger.segment_read(secret, 0, 3).unwrap_err().reason, Refusal::CannotObserve);
    assert_eq!(boot.segment_read(secret, 0, 3).unwrap(), b"key");
    assert_eq!(boot.segment_write(secret, 0, &[0; 65]).unwrap_err().reason, Refusal::BadBatch);
    assert_eq!(kernel.kept_live(0), Some(ROOT));
    let dump = kernel.dump().unwrap();
    assert_eq!(
        events(&dump),
        [
            "event 2 1 cat_create => cat #1",
            "event 2 2 segment_create #1 {#1:3,1} 2 1 => id #4",
            "event 2 3 thread_create #1 {1} 1 {2} 0 => id #5",
            "event 2 4 segment_write #1 #4 0 6b6579 => ok",
            "event 5 1 segment_write #1 #4 0 78 => refused 5 CannotObserve",
        ]
    );
    assert_eq!(kernel.dump().unwrap(), dump);
    boot.unref(secret).unwrap();
    let longer = kernel.dump().unwrap();
    assert_eq!(events(&longer)[..5], events(&dump)[..]);
    assert_eq!(events(&longer)[5..], ["event 2 5 unref #1 #4 => ok"]);
}

#[test]
fn a_log_of_all_has_reads_too() {
    let kernel = Kernel::boot(64).unwrap();
    let boot = kernel.session();
    kernel.log_on(8, Keep::All).unwrap();
    let c = boot.cat_create().unwrap();
    let secret = Entry::in_root(boot.segment_create(ROOT, &label! { c => L3; L1 }, 2, 1).unwrap());
    let stranger = boot.thread_create(ROOT, &label! { L1 }, 1, &label! { L2 }, 0).unwrap();
    // (where no event is between, the line of the smaller thread comes first)
    assert_eq!(stranger.segment_read(secret, 0, 3).unwrap_err().reason, Refusal::CannotObserve);
    assert_eq!(boot.segment_read(secret, 0, 3).unwrap(), [0; 3]);
    boot.segment_write(secret, 0, b"key").unwrap();
    assert_eq!(boot.segment_read(secret, 0, 3).unwrap(), b"key");
    let dump = kernel.dump().unwrap();
    let is_kept = |line: &&str| line.starts_with("event ") || line.starts_with("read ");
    assert_eq!(
        dump.lines().filter(is_kept).collect::<Vec<_>>(),
        [
            "event 2 1 cat_create => cat #1",
            "event 2 2 segment_create #1 {#1:3,1} 2 1 => id #4",
            "event 2 3 thread_create #1 {1} 1 {2} 0 => id #5",
            "read 2 segment_read #1 #4 0 3 => data 000000",
            "read 5 segment_read #1 #4 0 3 => refused 5 CannotObserve",
            "event 2 4 segment_write #1 #4 0 6b6579 => ok",
            "read 2 segment_read #1 #4 0 3 => data 6b6579",
        ]
    );
    // (the bound is of both; a look-up is no read)
    assert_eq!(boot.segment_len(secret).unwrap(), 1);
    assert_eq!(boot.segment_len(secret).unwrap_err().to_string(), "segment_len #4: 49 LogFull");
    assert_eq!(boot.cat_create().unwrap_err().reason, Refusal::LogFull);
    assert_eq!(kernel.kept_live(0), Some(ROOT));
    kernel.cut_log(1, Keep::All).unwrap();
    assert_eq!(boot.segment_len(secret).unwrap(), 1);
    assert_eq!(boot.segment_len(secret).unwrap_err().reason, Refusal::LogFull);
    kernel.cut_log(0, Keep::Writes).unwrap();
    assert_eq!(boot.segment_len(secret).unwrap(), 1);
}

#[test]
fn a_log_begins_with_the_first_call() {
    let kernel = Kernel::boot(64).unwrap();
    let boot = kernel.session();
    assert_eq!(kernel.dump().unwrap_err().reason, Refusal::BadBatch);
    boot.self_get().unwrap();
    kernel.log_on(1000, Keep::Writes).unwrap();
    assert_eq!(events(&kernel.dump().unwrap()), [""; 0]);
    kernel.log_on(1000, Keep::Writes).unwrap();
    assert_eq!(boot.unref(Entry::in_root(ROOT)).unwrap_err().reason, Refusal::RootKept);
    assert_eq!(kernel.log_on(1000, Keep::Writes).unwrap_err().reason, Refusal::BadBatch);
    assert_eq!(events(&kernel.dump().unwrap()), ["event 2 1 unref #1 #1 => refused 16 RootKept"]);

    let late = Kernel::boot(64).unwrap();
    late.session().cat_create().unwrap();
    assert_eq!(late.log_on(1000, Keep::Writes).unwrap_err().reason, Refusal::BadBatch);
    assert_eq!(late.dump().unwrap_err().reason, Refusal::BadBatch);
}

#[test]
fn a_full_log_refuses_what_is_kept() {
    for most in [0, 1, 2, 12] {
        let kernel = Kernel::boot(64).unwrap();
        let boot = kernel.session();
        kernel.log_on(most, Keep::Writes).unwrap();
        (0..most).for_each(|number| assert_eq!(boot.cat_create().unwrap().0, number + 1));
        let dump = kernel.dump().unwrap();
        assert_eq!(boot.cat_create().unwrap_err().to_string(), "cat_create: 49 LogFull");
        // (also what the rules refuse, which would be kept)
        assert_eq!(boot.unref(Entry::in_root(ROOT)).unwrap_err().reason, Refusal::LogFull);
        assert!(boot.self_get().is_ok());
        assert_eq!(kernel.dump().unwrap(), dump);
        kernel.cut_log(1, Keep::Writes).unwrap();
        assert_eq!(boot.cat_create().unwrap().0, most + 1);
        assert_eq!(boot.cat_create().unwrap_err().reason, Refusal::LogFull);
        let event = format!("event 2 {} cat_create => cat #{0}\n", most + 1);
        assert!(kernel.dump().unwrap().contains(&event));
        // (a bound may be raised at a cut, and `u64::MAX` is none)
        kernel.cut_log(u64::MAX, Keep::Writes).unwrap();
        assert!((0..200).all(|_| boot.unref(Entry::in_root(ROOT)).unwrap_err().reason == Refusal::RootKept));
    }
}

/// Takes so many bytes, and then no more.
struct Small {
    left: usize,
    taken: Vec<u8>,
}

impl Write for Small {
    fn write(&mut self, bytes: &[u8]) -> io::Result<usize> {
        let some = bytes.len().min(self.left);
        self.left -= some;
        self.taken.extend_from_slice(&bytes[..some]);
        Ok(some)
    }

    fn flush(&mut self) -> io::Result<()> {
        Ok(())
    }
}

/// Calls the kernel, and keeps why it may not.
struct Calling<'k> {
    kernel: &'k Kernel,
    told: Vec<Refused>,
}

impl Write for Calling<'_> {
    fn write(&mut self, bytes: &[u8]) -> io::Result<usize> {
        let boot = self.kernel.session();
        self.told.extend(boot.cat_create().err());
        self.told.extend(boot.self_get().err());
        self.told.extend(self.kernel.dump().err());
        self.told.extend(self.kernel.cut_log(1000, Keep::Writes).err());
        Ok(bytes.len())
    }

    fn flush(&mut self) -> io::Result<()> {
        Ok(())
    }
}

/// A kernel with a log of so many calls.
fn logged(calls: usize) -> Kernel {
    let kernel = Kernel::boot(64).unwrap();
    kernel.log_on(1000, Keep::Writes).unwrap();
    for _ in 0..calls {
        assert_eq!(kernel.session().unref(Entry::in_root(ROOT)).unwrap_err().reason, Refusal::RootKept);
    }
    kernel
}

#[test]
fn a_dump_is_written_piece_by_piece() {
    for calls in [0, 1, 63, 64, 65, 128, 200] {
        let kernel = logged(calls);
        let (dump, checkpoint) = (kernel.dump().unwrap(), kernel.checkpoint().unwrap());
        assert_eq!(events(&dump).len(), calls);
        let mut text = Vec::new();
        kernel.dump_to(&mut text).unwrap();
        assert_eq!(text, dump.as_bytes());
        text.clear();
        kernel.checkpoint_to(&mut text).unwrap();
        assert_eq!(text, checkpoint.as_bytes());
    }
}

#[test]
fn a_dump_ends_where_nothing_takes_it() {
    let kernel = logged(200);
    let dump = kernel.dump().unwrap();
    for left in [0, 1, 63, 64, 1000, 5000, dump.len() - 1] {
        let mut small = Small { left, taken: Vec::new() };
        assert_eq!(kernel.dump_to(&mut small).unwrap_err().kind(), ErrorKind::WriteZero);
        assert_eq!(small.taken, &dump.as_bytes()[..left]);
        assert_eq!(
            kernel.checkpoint_to(&mut Small { left: 1, taken: Vec::new() }).unwrap_err().kind(),
            ErrorKind::WriteZero
        );
        assert_eq!(kernel.dump().unwrap(), dump);
    }
}

#[test]
fn no_call_comes_between_the_pieces_of_a_dump() {
    let kernel = logged(100);
    let dump = kernel.dump().unwrap();
    let mut calling = Calling { kernel: &kernel, told: Vec::new() };
    kernel.dump_to(&mut calling).unwrap();
    assert!(calling.told.len() >= 4 * 4);
    assert!(calling.told.iter().all(|refused| refused.reason == Refusal::Busy));
    assert_eq!(kernel.dump().unwrap(), dump);
}

#[test]
fn what_has_no_log_writes_nothing() {
    let (kernel, seat) = (Kernel::boot(64).unwrap(), Seat::share(64, 1).unwrap());
    let mut text = Vec::new();
    let refused = |error: io::Error| *error.get_ref().unwrap().downcast_ref::<Refused>().unwrap();
    let none = Refused { call: "dump", object: None, reason: Refusal::BadBatch };
    assert_eq!(refused(kernel.dump_to(&mut text).unwrap_err()), none);
    assert_eq!(refused(seat.dump_to(&mut text).unwrap_err()), none);
    assert!(text.is_empty());
}

#[test]
fn a_seat_writes_its_dump() {
    let seat = Seat::share_with(&Limits::pages(8), 300, Log::Whole).unwrap();
    for _ in 0..200 {
        assert_eq!(seat.session().unref(Entry::in_root(ROOT)).unwrap_err().reason, Refusal::RootKept);
    }
    let mut text = Vec::new();
    seat.dump_to(&mut text).unwrap();
    assert_eq!(text, seat.dump().unwrap().as_bytes());
    assert_eq!(events(&String::from_utf8(text).unwrap()).len(), 200);
}
