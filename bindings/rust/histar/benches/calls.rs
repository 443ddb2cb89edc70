//! The least time of a call over many short runs, beside `pread` and `pwrite` of 64 bytes in the same run.
#![allow(missing_docs)]
#![allow(clippy::incompatible_msrv)] // black_box: the crate itself needs no more than Cargo.toml says
use histar::trusted::Thread;
use histar::{label, Call, Entry, Kernel, Mapping, Object, Rights, Seat};
use std::hint::black_box;
use std::os::unix::fs::FileExt;
use std::sync::Mutex;
use std::time::Instant;

const ROUNDS: u32 = 1000;

fn runs() -> u32 {
    std::env::var("RUNS").ok().and_then(|it| it.parse().ok()).unwrap_or(400)
}

/// The nanoseconds of one of many.
fn timed(work: &mut impl FnMut(), rounds: u32) -> f64 {
    let began = Instant::now();
    for _ in 0..rounds {
        work();
    }
    began.elapsed().as_nanos() as f64 / f64::from(rounds)
}

fn least(name: &str, mut work: impl FnMut()) {
    let least = (0..runs()).map(|_| timed(&mut work, ROUNDS)).fold(f64::MAX, f64::min);
    println!("{name}: {least:.1} ns");
}

/// Takes a value that is made for its time alone.
fn seen<T>(value: T) {
    black_box(value);
}

/// A file of 4,096 bytes in memory, which has no name.
fn file() -> std::fs::File {
    let path = format!("/dev/shm/histar-bench-{}", std::process::id());
    std::fs::write(&path, [7u8; 4096]).expect("a file in /dev/shm");
    let file = std::fs::OpenOptions::new().read(true).write(true).open(&path).expect("the file");
    std::fs::remove_file(&path).expect("the file");
    file
}

/// The least time of a read, where two threads read at once.
fn two_threads(name: &str, read: impl Fn(&mut dyn FnMut(&mut dyn FnMut())) + Sync) {
    let mut best = f64::MAX;
    for _ in 0..10 {
        std::thread::scope(|scope| {
            let one = || {
                let mut took = f64::MAX;
                read(&mut |work| took = took.min(timed(&mut || work(), 200_000)));
                took
            };
            for thread in [(); 2].map(|()| scope.spawn(one)) {
                best = best.min(thread.join().expect("a thread"));
            }
        });
    }
    println!("{name}: {best:.1} ns");
}

fn main() {
    let kernel = Kernel::boot(64).expect("a kernel");
    let boot = kernel.session();
    let c = boot.cat_create().expect("a category");
    let guarded = label! { c => L3; L1 };
    let entry = Entry::in_root(boot.segment_create(Object::ROOT, &guarded, 2, 1).expect("a segment"));
    let space = Entry::in_root(boot.as_create(Object::ROOT, &label! { L1 }, 1).expect("a space"));
    let mapping = Mapping { page: 0, segment: entry, first: 0, count: 1, rights: Rights::READ_WRITE };
    boot.as_map(space, 0, mapping).expect("a mapping");
    boot.self_set_as(space).expect("the space");

    let (file, mut place) = (file(), [0u8; 64]);
    least("pread of 64 bytes", || file.read_exact_at(&mut place, 128).expect("a read"));
    least("pwrite of 64 bytes", || file.write_all_at(&[1; 64], 128).expect("a write"));
    least("segment_read of 64 bytes", || seen(boot.segment_read(entry, 128, 64).expect("a read")));
    least("segment_write of 64 bytes", || boot.segment_write(entry, 128, &[1; 64]).expect("a write"));
    let load = Call::Load { address: 128, count: 64 };
    least("load of 64 bytes, as a value", || seen(boot.call(&load).expect("a load")));
    least("segment_create with its unref", || {
        let made = boot.segment_create(Object::ROOT, &guarded, 1, 0).expect("a segment");
        boot.unref(Entry::in_root(made)).expect("an unref");
    });
    let mutex = Mutex::new(kernel);
    let under_lock = || seen(mutex.lock().expect("the lock").session().segment_read(entry, 128, 64).expect("a read"));
    least("segment_read of 64 bytes under a free Mutex", under_lock);

    let first = Seat::share(64, 2).expect("a shared kernel");
    first.call(Thread::BOOT, &Call::CatCreate).expect("a category");
    let create = Call::SegmentCreate { container: Object::ROOT, label: (&guarded).into(), quota: 2, pages: 1 };
    first.call(Thread::BOOT, &create).expect("a segment");
    let read = Call::SegmentRead { entry, offset: 128, count: 64 };
    let first = Mutex::new(first);
    two_threads("two threads that read, one Mutex", |measure| measure(&mut || under_lock()));
    two_threads("two threads that read, a seat each", |measure| {
        let seat = first.lock().expect("the lock").another().expect("a seat");
        measure(&mut || seen(seat.call(Thread::BOOT, &read).expect("a read")));
    });
}
