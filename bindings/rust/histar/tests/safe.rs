//! What a program may hold: nothing printed has bytes, nothing is left of a secret, and what goes wrong once costs one call.
#![allow(unsafe_code)] // for fork
use histar::{label, Call, Entry, Keep, Kernel, Limits, Log, Object, Refusal, Refused, Seat, Session};
use std::fs::File;
use std::io::{self, Write};
use std::os::unix::fs::FileExt;
use std::panic::{catch_unwind, AssertUnwindSafe};

extern "C" {
    fn fork() -> i32;
    fn waitpid(child: i32, status: *mut i32, options: i32) -> i32;
    fn _exit(status: i32) -> !;
}

const SECRET: usize = 48;

/// The secret of a way, byte by byte: it stands nowhere whole in the program.
fn byte(way: u64, at: usize) -> u8 {
    let mixed = (way.wrapping_mul(0x9e37_79b9_7f4a_7c15) ^ (at as u64 + 1)).wrapping_mul(0xbf58_476d_1ce4_e5b9) >> 40;
    // SAFETY: a reference is a place that may be read. The compiler makes no table of what it finds there.
    unsafe { std::ptr::read_volatile(&mixed) as u8 }
}

/// Clears what the program itself holds.
fn clear(bytes: &mut [u8]) {
    for byte in bytes {
        // SAFETY: a reference is a place that may be written.
        unsafe { std::ptr::write_volatile(byte, 0) }
    }
}

fn digit(way: u64, at: usize) -> u8 {
    let byte = byte(way, at / 2);
    b"0123456789abcdef"[usize::from(if at % 2 == 0 { byte >> 4 } else { byte & 15 })]
}

/// How often 16 bytes of the secret stand here, as they are or as a text has them.
fn found_in(memory: &[u8], way: u64) -> usize {
    let starts = |at: usize, len: usize, sought: fn(u64, usize) -> u8, from: usize| {
        (0..len).all(|place| memory[at + place] == sought(way, from + place))
    };
    let is_here = |at: usize| {
        (at + 16 <= memory.len() && (0..SECRET).step_by(16).any(|from| starts(at, 16, byte, from)))
            || (at + 32 <= memory.len() && (0..2 * SECRET).step_by(32).any(|from| starts(at, 32, digit, from)))
    };
    let firsts = [byte(way, 0), byte(way, 16), byte(way, 32), digit(way, 0), digit(way, 32), digit(way, 64)];
    let mut is_first = [false; 256];
    firsts.iter().for_each(|first| is_first[usize::from(*first)] = true);
    (0..memory.len()).filter(|at| is_first[usize::from(memory[*at])] && is_here(*at)).count()
}

/// The same in the whole process, but for what it is read into.
fn found(way: u64, room: &mut [u8]) -> usize {
    let memory = File::open("/proc/self/mem").unwrap();
    let maps = std::fs::read_to_string("/proc/self/maps").unwrap();
    let own = room.as_ptr() as u64;
    let mut count = 0;
    for line in maps.lines().filter(|line| line.contains(" rw")) {
        let (from, to) = line.split_once(' ').unwrap().0.split_once('-').unwrap();
        let (mut from, to) = (u64::from_str_radix(from, 16).unwrap(), u64::from_str_radix(to, 16).unwrap());
        while from < to && !(from <= own && own < to) {
            let len = room.len().min((to - from) as usize);
            let len = match memory.read_at(&mut room[..len], from) {
                Ok(len) => len,
                Err(_) => break,
            };
            count += found_in(&room[..len], way);
            from += if len == room.len() { (len - 64) as u64 } else { len as u64 };
        }
    }
    count
}

/// Writes the secret and reads it, so that it stands in a segment.
fn keep(session: Session<'_>, way: u64) -> Entry {
    let made = Entry::in_root(session.segment_create(Object::ROOT, &label! { L1 }, 2, 1).unwrap());
    let mut secret = [0; SECRET];
    (0..SECRET).for_each(|at| secret[at] = byte(way, at));
    session.segment_write(made, 0, &secret).unwrap();
    assert_eq!(session.segment_read(made, 0, SECRET as u32).unwrap(), secret);
    clear(&mut secret);
    made
}

/// Takes a text, and panics at the part with this number.
struct Taker(usize);
impl Write for Taker {
    fn write(&mut self, part: &[u8]) -> io::Result<usize> {
        self.0 -= 1;
        assert_ne!(self.0, 0, "the writer gives up");
        Ok(part.len())
    }
    fn flush(&mut self) -> io::Result<()> {
        Ok(())
    }
}

fn closed(way: u64) {
    keep(Kernel::boot(64).unwrap().session(), way);
}
fn dumped(way: u64) {
    let kernel = Kernel::boot(64).unwrap();
    kernel.log_on(u64::MAX, Keep::All).unwrap();
    keep(kernel.session(), way);
    kernel.dump_to(&mut Taker(usize::MAX)).unwrap();
    kernel.checkpoint_to(&mut Taker(usize::MAX)).unwrap();
}
fn left_by_a_panic(way: u64) {
    let kernel = Kernel::boot(64).unwrap();
    keep(kernel.session(), way);
    assert!(catch_unwind(AssertUnwindSafe(|| kernel.checkpoint_to(&mut Taker(1)))).is_err());
    assert!(kernel.session().cat_create().is_ok());
}
fn opened(way: u64) {
    let kernel = Kernel::boot(64).unwrap();
    let made = keep(kernel.session(), way);
    let mut text = kernel.checkpoint().unwrap().into_bytes();
    drop(kernel);
    let kernel = Kernel::open_at(&text).unwrap();
    clear(&mut text);
    assert_eq!(kernel.session().segment_read(made, 0, 1).unwrap(), [byte(way, 0)]);
}
fn shared(way: u64) {
    let seat = Seat::share_with(&Limits::pages(64), 100, Log::Whole).unwrap();
    keep(seat.session(), way);
    let mut other = seat.another().unwrap();
    other.dump_to(&mut Taker(usize::MAX)).unwrap();
    let view = other.view();
    let reader = view.reader().unwrap();
    assert!(reader.session().self_get().is_ok());
}

/// Each way in a thread of its own, of which nothing but its stack could be left.
#[test]
fn nothing_of_a_secret_is_left() {
    let mut room = vec![0; 1 << 20];
    for (way, goes) in [closed, dumped, left_by_a_panic, opened, shared].into_iter().enumerate() {
        goes(way as u64 + 1);
        assert_eq!(found(way as u64 + 1, &mut room), 0, "way {way}");
    }
    let left: Vec<u8> = (0..SECRET).map(|at| byte(9, at)).collect();
    assert_ne!(found(9, &mut room), 0);
    drop(left);
}

#[test]
fn what_is_printed_has_no_bytes() {
    let kernel = Kernel::boot(64).unwrap();
    let boot = kernel.session();
    let note = Entry::in_root(boot.segment_create(Object::ROOT, &label! { L1 }, 2, 1).unwrap());
    boot.segment_write(note, 0, b"key").unwrap();
    assert_eq!(format!("{:?}", boot.segment_read(note, 0, 3).unwrap()), "3 bytes");
    let calls = [
        Call::SegmentWrite { entry: note, offset: 0, bytes: b"key"[..].into() },
        Call::Store { address: 0, bytes: b"key"[..].into() },
        Call::MetaSet { entry: note, bytes: b"key"[..].into() },
        Call::DevSend { entry: note, bytes: b"key"[..].into() },
    ];
    for call in &calls {
        assert!(format!("{call:?}").contains("bytes: 3 bytes"), "{call:?}");
        assert!(!format!("{call:?}").contains("107"), "{call:?}");
    }
    let read = Call::SegmentRead { entry: note, offset: 0, count: 3 };
    let reply = boot.call(&read).unwrap();
    assert_eq!(format!("{reply:?}"), "Bytes(3 bytes)");
    assert_eq!(
        format!("{:?} {:?}", Call::CatCreate, Call::Unref { entry: Entry::NONE }),
        format!("CatCreate Unref {{ entry: {:?} }}", Entry::NONE)
    );
}

#[test]
fn a_forgotten_reader_is_told() {
    let mut seat = Seat::share(64, 10).unwrap();
    let other = seat.another().unwrap();
    std::mem::forget(seat.view().reader().unwrap());
    other.session().cat_create().unwrap();
    let busy = |told: Result<(), Refused>| assert_eq!(told.unwrap_err().reason, Refusal::Busy);
    busy(seat.session().self_get().map(drop));
    busy(seat.session().cat_create().map(drop));
    busy(seat.learn(other.seen()));
    assert!(catch_unwind(AssertUnwindSafe(|| seat.seen())).is_err());
    assert!(other.session().self_get().is_ok());
}

/// A dump whose writer panics leaves nothing: the seat goes on, and the list gives back what all have seen.
#[test]
fn a_panic_in_a_writer_costs_its_dump() {
    let seat = Seat::share(8, 1).unwrap();
    let older = seat.another().unwrap();
    let made = Entry::in_root(seat.session().segment_create(Object::ROOT, &label! { L1 }, 2, 1).unwrap());
    (0..300).for_each(|_| seat.session().segment_write(made, 0, b"x").unwrap());
    assert!(catch_unwind(AssertUnwindSafe(|| seat.dump_since(&older, &mut Taker(2)))).is_err());
    for _ in 0..3000 {
        seat.session().segment_write(made, 0, b"y").unwrap();
        assert!(older.session().self_get().is_ok());
    }
    seat.dump_since(&older, &mut Taker(usize::MAX)).unwrap();
}

#[test]
fn a_child_of_fork_is_refused() {
    let kernel = Kernel::boot(64).unwrap();
    let seat = Seat::share(64, 10).unwrap();
    // SAFETY: the child makes calls, and ends.
    unsafe {
        let child = fork();
        if child == 0 {
            let told = [kernel.session().cat_create().err(), seat.session().self_get().err(), seat.another().err()];
            let is_refused = told.iter().all(|told| told.map(|refused| refused.reason) == Some(Refusal::Unavailable));
            let own = Kernel::boot(8).and_then(|own| own.session().cat_create());
            _exit(if is_refused && own.is_ok() { 7 } else { 1 });
        }
        let mut status = 0;
        assert_eq!(waitpid(child, &mut status, 0), child);
        assert_eq!(status, 7 << 8);
    }
    assert!(kernel.session().cat_create().is_ok());
}
