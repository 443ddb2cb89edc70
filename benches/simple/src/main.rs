//! Times calls of a kernel in plain Rust, by one thread, as the bench of the arena kernel times its own.
mod kernel;
mod label;
mod objects;

use kernel::{Kernel, Refusal, BOOT_THREAD, ROOT};
use label::{Label, Level};
use objects::{Entry, Mapping, Rights};
use std::hint::black_box;
use std::time::Instant;

const USAGE: &str = "simple PAGES OBJECTS CATEGORIES ROUNDS";
const BYTES: [u8; 64] = [7; 64];

/// A kernel of so many pages that so many other objects fill, whose labels have so many categories, and rounds.
struct Size {
    pages: u32,
    objects: u64,
    categories: u64,
    rounds: u64,
}

fn in_root(object: u64) -> Entry {
    Entry { container: ROOT, object }
}

/// The label of what is made: 3 in each category that the boot thread made for it.
fn label_of(kernel: &mut Kernel, categories: u64) -> Result<Label, Refusal> {
    let mut label = Label::plain(Level::L1);
    for _ in 0..categories {
        label.pairs.push((kernel.cat_create(BOOT_THREAD)?, Level::L3));
    }
    Ok(label)
}

/// Makes so many segments without pages, or as many as there is room for.
fn fill(kernel: &mut Kernel, label: &Label, objects: u64) {
    for _ in 0..objects {
        let _ = kernel.segment_create(BOOT_THREAD, ROOT, label, 1, 0);
    }
}

/// Prints how long a call takes that is made so often, and how often it was refused, if ever.
fn tell(name: &str, rounds: u64, mut call: impl FnMut() -> Result<(), Refusal>) {
    let mut done = 0;
    let start = Instant::now();
    for _ in 0..rounds {
        done += u64::from(call().is_ok());
    }
    let nanos = start.elapsed().as_nanos() as u64;
    if done != rounds {
        println!("{name}: {done} of {rounds} done");
    }
    println!("{name}: {} ns", nanos / rounds.max(1));
}

/// Times what reads and writes a mapped segment of a page, and a segment that is made and goes.
fn tell_segments(size: &Size) -> Result<(), Refusal> {
    let start = Instant::now();
    let mut kernel = black_box(Kernel::boot(size.pages));
    println!("boot of {} pages: {} us", size.pages, start.elapsed().as_micros());
    let label = label_of(&mut kernel, size.categories)?;
    let segment = in_root(kernel.segment_create(BOOT_THREAD, ROOT, &label, 2, 1)?);
    let space = in_root(kernel.as_create(BOOT_THREAD, ROOT, &label, 1)?);
    let rights = Rights { read: true, write: true };
    let mapping = Mapping { page: 0, entry: segment, first: 0, count: 1, rights };
    kernel.as_map(BOOT_THREAD, space, 0, mapping)?;
    kernel.self_set_as(BOOT_THREAD, Some(space))?;
    fill(&mut kernel, &label, size.objects);
    let mut buffer = [0; 64];
    tell("load", size.rounds, || kernel.load(black_box(BOOT_THREAD), 0, black_box(&mut buffer)));
    tell("segment_read", size.rounds, || {
        kernel.segment_read(black_box(BOOT_THREAD), segment, 0, black_box(&mut buffer))
    });
    tell("store", size.rounds, || kernel.store(black_box(BOOT_THREAD), 0, black_box(&BYTES)));
    tell("segment_write", size.rounds, || {
        kernel.segment_write(black_box(BOOT_THREAD), segment, 0, black_box(&BYTES))
    });
    tell("create with unref", size.rounds, || {
        let made = kernel.segment_create(black_box(BOOT_THREAD), ROOT, &label, 1, 0)?;
        kernel.unref(BOOT_THREAD, in_root(made))
    });
    Ok(())
}

/// Times a second link of a segment that is made and goes, in a kernel of its own.
fn tell_links(size: &Size) -> Result<(), Refusal> {
    let mut kernel = Kernel::boot(size.pages);
    let label = label_of(&mut kernel, size.categories)?;
    let segment = in_root(kernel.segment_create(BOOT_THREAD, ROOT, &label, 1, 0)?);
    let target = kernel.container_create(BOOT_THREAD, ROOT, &label, 2)?;
    kernel.set_fixed(BOOT_THREAD, segment)?;
    fill(&mut kernel, &label, size.objects);
    let second = Entry { container: target, object: segment.object };
    tell("link with unref", size.rounds, || {
        kernel.link(black_box(BOOT_THREAD), target, segment)?;
        kernel.unref(BOOT_THREAD, second)
    });
    Ok(())
}

fn size_in(words: &[String]) -> Option<Size> {
    let [_, pages, objects, categories, rounds] = words else {
        return None;
    };
    Some(Size {
        pages: pages.parse().ok()?,
        objects: objects.parse().ok()?,
        categories: categories.parse().ok()?,
        rounds: rounds.parse().ok()?,
    })
}

fn main() -> Result<(), Refusal> {
    let words: Vec<String> = std::env::args().collect();
    let Some(size) = size_in(&words) else {
        println!("{USAGE}");
        return Ok(());
    };
    tell_segments(&size)?;
    tell_links(&size)
}
