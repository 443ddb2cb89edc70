//! The library's functions and records, as `include/histar.h` has them, and a safe kernel over them. All unsafe code of
//! the crate stands here.
use crate::{Limits, Refusal, Refused};
use std::cell::{RefCell, RefMut, UnsafeCell};
use std::marker::PhantomData;
use std::mem::{align_of, size_of};
use std::sync::atomic::{AtomicU32, Ordering};
use std::sync::Arc;
use std::time::Duration;

/// A label in a record.
#[repr(C)]
#[derive(Clone, Copy)]
pub(crate) struct LabelRecord {
    pub default_level: u8,
    pub count: u8,
    pub levels: [u8; 24],
    pub categories: [u64; 24],
}

/// What a thread asks for.
#[repr(C)]
#[derive(Clone)]
pub(crate) struct Request {
    pub call: u32,
    pub len: u32,
    pub thread: u64,
    pub container: u64,
    pub object: u64,
    pub other_container: u64,
    pub other_object: u64,
    pub numbers: [u64; 5],
    pub bytes: [u8; 64],
    pub label: LabelRecord,
    pub clearance: LabelRecord,
    pub verify: LabelRecord,
}

/// What is answered.
#[repr(C)]
pub(crate) struct Answer {
    pub reply: u32,
    pub len: u32,
    pub numbers: [u64; 17],
    pub bytes: [u8; 64],
    pub label: LabelRecord,
    pub clearance: LabelRecord,
    pub verify: LabelRecord,
}

// The layout that the library was proved with.
const _: () = assert!(size_of::<LabelRecord>() == 224);
const _: () = assert!(size_of::<Request>() == 8 + 5 * 8 + 5 * 8 + 64 + 3 * 224);
const _: () = assert!(size_of::<Answer>() == 8 + 17 * 8 + 64 + 3 * 224);
// The bytes stand after 11 and 18 words of 8 bytes.
const _: () = assert!(align_of::<Request>() == 8 && align_of::<Answer>() == 8);

impl LabelRecord {
    pub const ZEROS: LabelRecord = LabelRecord { default_level: 0, count: 0, levels: [0; 24], categories: [0; 24] };

    /// Wipes a label that is not all zeros already.
    fn wipe(&mut self) {
        if self.default_level != 0 || self.count != 0 {
            // SAFETY: a reference is a place that may be written.
            unsafe { std::ptr::write_volatile(self, LabelRecord::ZEROS) }
        }
    }
}

impl Request {
    pub const ZEROS: Request = Request {
        call: 0,
        len: 0,
        thread: 0,
        container: 0,
        object: 0,
        other_container: 0,
        other_object: 0,
        numbers: [0; 5],
        bytes: [0; 64],
        label: LabelRecord::ZEROS,
        clearance: LabelRecord::ZEROS,
        verify: LabelRecord::ZEROS,
    };
}

impl Answer {
    const ZEROS: Answer = Answer {
        reply: 0,
        len: 0,
        numbers: [0; 17],
        bytes: [0; 64],
        label: LabelRecord::ZEROS,
        clearance: LabelRecord::ZEROS,
        verify: LabelRecord::ZEROS,
    };
}

/// The memory that a kernel, a seat or a reader stands in, which only the library looks at.
#[repr(C, align(16))]
struct Room([u64; 384]);

impl Room {
    /// Room in which nothing is held.
    fn new() -> Box<Room> {
        // SAFETY: these functions look at nothing.
        let needed = unsafe { histar_size().max(histar_seat_size()).max(histar_reader_size()) };
        assert!(needed <= size_of::<Room>(), "the library needs a larger room than this crate gives");
        Box::new(Room([0; 384]))
    }
}

extern "C" {
    fn histar_seat_size() -> usize;
    fn histar_seat_first(
        pages: u32,
        device_level: u8,
        next_id: u64,
        next_category: u64,
        most: u64,
        logs: u8,
        seat: *mut Room,
    );
    fn histar_seat_beside(from: *mut Room, seat: *mut Room);
    fn histar_seat_call(seat: *mut Room, request: *const Request, answer: *mut Answer) -> u32;
    fn histar_seat_end(seat: *mut Room);
    fn histar_reader_size() -> usize;
    fn histar_reader_of(seat: *mut Room, reader: *mut Room);
    fn histar_reader_call(reader: *mut Room, request: *const Request, answer: *mut Answer) -> u32;
    fn histar_reader_end(reader: *mut Room);
    fn histar_size() -> usize;
    fn histar_layout() -> u32;
    static histar_process: *const u64;
    fn histar_process_begins() -> u64;
    fn histar_wipe_below(depth: usize);
    fn histar_boot(pages: u32, device_level: u8, next_id: u64, next_category: u64, room: *mut Room);
    fn histar_boot_at(text: *const u8, len: usize, room: *mut Room);
    fn histar_call(room: *mut Room, request: *const Request, answer: *mut Answer) -> u32;
    fn histar_end(room: *mut Room);
}

/// The layout of these records, as `HISTAR_LAYOUT` has it.
const LAYOUT: u32 = 1001;

/// Whether a library of this layout has records with the same meaning, and all that these have.
const fn suits(library: u32) -> bool {
    library / 1000 == LAYOUT / 1000 && library >= LAYOUT
}

/// The number that a seat's call is told while another seat adds its own, and a call while another uses the kernel.
const BUSY: u32 = 46;

/// A seat that is told so asks again: at once, then after others had a turn, then after a millisecond each. After a fifth of a second it is
/// refused: the other's thread may be stopped.
const TRIES_AT_ONCE: u32 = 100;
const TRIES_IN_TURN: u32 = 200;
const TRIES: u32 = 400;

/// Whether the library's layout suits this crate, and there is memory to tell this process from its children.
fn begin() -> Result<(), Refusal> {
    // SAFETY: these functions take nothing and look at no room.
    match unsafe { (suits(histar_layout()), histar_process_begins()) } {
        (false, _) => Err(Refusal::OtherVersion),
        (true, 0) => Err(Refusal::Unavailable),
        (true, _) => Ok(()),
    }
}

/// The number of this process. A child of fork has another.
fn process() -> u64 {
    // SAFETY: the library points to a number that stands as long as the program, and of which a read is whole.
    unsafe { histar_process.read_volatile() }
}

/// How much stack is needed, by calls and by texts.
const CALL_STACK: usize = 28 << 10;
pub(crate) const TEXT_STACK: usize = 56 << 10;

/// Wipes so much of this thread's stack below.
pub(crate) fn wipe_below(depth: usize) {
    // SAFETY: the function writes below this stack frame alone.
    unsafe { histar_wipe_below(depth) }
}

/// Wipes a text that nobody reads again.
pub(crate) fn wipe_text(text: &mut Vec<u8>) {
    for byte in text.iter_mut() {
        // SAFETY: a reference is a place that may be written.
        unsafe { std::ptr::write_volatile(byte, 0) }
    }
    text.clear();
}

/// Writes zeros over a value that nobody reads again, so that the compiler may not leave it out.
fn wipe<const N: usize>(words: &mut [u64; N]) {
    // SAFETY: a reference is a place that may be written.
    unsafe { std::ptr::write_volatile(words, [0; N]) }
}

/// The same of the 64 bytes of a record, which begin at a multiple of 8.
fn wipe_bytes(bytes: &mut [u8; 64]) {
    let words = bytes.as_mut_ptr().cast::<u64>();
    for place in 0..8 {
        // SAFETY: the eight words are the 64 bytes, and the records of `repr(C)` have them at a multiple of 8, as is asserted above.
        unsafe { std::ptr::write_volatile(words.add(place), 0) }
    }
}

/// What a call is asked by and answered in.
struct Records {
    request: Request,
    answer: Answer,
}

impl Records {
    /// Wipes the bytes, numbers and labels of a call that is over.
    fn wipe(&mut self) {
        wipe(&mut self.request.numbers);
        for label in [&mut self.request.label, &mut self.request.clearance, &mut self.request.verify] {
            label.wipe();
        }
        if self.request.len > 0 {
            wipe_bytes(&mut self.request.bytes);
            self.request.len = 0;
        }
        match self.answer.reply {
            0 | 12 => {}
            4 => wipe_bytes(&mut self.answer.bytes),
            _ => self.answer = Answer::ZEROS,
        }
    }
}

/// A kernel or a seat that is taken for calls: others are refused meanwhile.
pub(crate) struct Taken<'a> {
    raw: &'a Raw,
    records: RefMut<'a, Box<Records>>,
}

impl Taken<'_> {
    /// Does what is asked for, and reads the answer, or tells what was refused. Nothing of either stays in the records.
    pub fn ask<R>(&mut self, fill: impl FnOnce(&mut Request), read: impl FnOnce(&Answer) -> R) -> Result<R, Refused> {
        let records = &mut **self.records;
        fill(&mut records.request);
        let told = match self.raw.serve(records) {
            0 => Ok(read(&records.answer)),
            number => Err(records.request.refused(Refusal::told(number))),
        };
        records.wipe();
        told
    }
}

/// What a room holds.
#[derive(Clone, Copy, PartialEq, Eq)]
enum Holds {
    Kernel,
    Seat,
    Reader,
}

/// A booted kernel, a seat or a reader, with the records of its last call.
pub(crate) struct Raw {
    room: UnsafeCell<Box<Room>>,
    holds: Holds,
    /// The process that opened it.
    process: u64,
    /// Of a seat, how many readers it has; of a reader, how many its seat has. One that is forgotten is among them.
    readers: Arc<AtomicU32>,
    records: RefCell<Box<Records>>,
    // Not `Sync`: one call at a time uses a kernel.
    one_caller: PhantomData<*mut Room>,
}

// SAFETY: the room, the records and the heap blocks that the library keeps for the room are this kernel's alone, and no call
// looks at the thread of the system that makes it. The library's proof has that what the room holds is `Send`.
unsafe impl Send for Raw {}

impl Raw {
    /// A kernel or a seat in a room that holds it, or why there is none.
    ///
    /// # Safety
    /// `histar_boot` or, for a seat, `histar_seat_first` or `histar_seat_beside`, or for a reader `histar_reader_of` filled the room.
    unsafe fn of(room: Box<Room>, holds: Holds) -> Result<Raw, Refusal> {
        let raw = Raw {
            room: UnsafeCell::new(room),
            holds,
            process: process(),
            readers: Arc::default(),
            records: RefCell::new(Box::new(Records { request: Request::ZEROS, answer: Answer::ZEROS })),
            one_caller: PhantomData,
        };
        // A record of zeros asks for nothing: a kernel that is there says so.
        match raw.ask(|_| (), |_| ()) {
            Err(Refused { reason: Refusal::BadBatch, .. }) => Ok(raw),
            Err(refused) => Err(refused.reason),
            Ok(()) => unreachable!("the library did what was not asked"),
        }
    }

    /// Boots a kernel, or tells why there is none.
    pub fn boot(limits: &Limits) -> Result<Raw, Refusal> {
        begin()?;
        let mut room = Room::new();
        // SAFETY: the room is this kernel's own and nothing is held in it yet. It is large enough and stands at a multiple of 16. From
        // here on it holds a kernel, or why there is none.
        unsafe {
            histar_boot(limits.pages, limits.device.number(), limits.next_id, limits.next_category, &mut *room);
            Raw::of(room, Holds::Kernel)
        }
    }

    /// Opens a kernel at a text, or tells why there is none.
    pub fn boot_at(text: &[u8]) -> Result<Raw, Refusal> {
        begin()?;
        let mut room = Room::new();
        // SAFETY: as at a boot. The text is read for the length of the call, and nobody writes it meanwhile.
        unsafe {
            histar_boot_at(text.as_ptr(), text.len(), &mut *room);
            let opened = Raw::of(room, Holds::Kernel);
            wipe_below(TEXT_STACK);
            opened
        }
    }

    /// Boots the first seat of a kernel that threads share, or tells why there is none.
    pub fn first_seat(limits: &Limits, most: u64, logs: bool) -> Result<Raw, Refusal> {
        begin()?;
        let mut room = Room::new();
        // SAFETY: as for a kernel.
        unsafe {
            histar_seat_first(
                limits.pages,
                limits.device.number(),
                limits.next_id,
                limits.next_category,
                most,
                logs.into(),
                &mut *room,
            );
            Raw::of(room, Holds::Seat)
        }
    }

    /// Another seat beside one, or why there is none.
    pub fn seat_beside(&self) -> Result<Raw, Refusal> {
        self.of_seat(histar_seat_beside, Holds::Seat)
    }

    /// A reader of a seat's kernel, or why there is none.
    pub fn reader(&self) -> Result<Raw, Refusal> {
        let mut reader = self.of_seat(histar_reader_of, Holds::Reader)?;
        self.readers.fetch_add(1, Ordering::Relaxed);
        reader.readers = Arc::clone(&self.readers);
        Ok(reader)
    }

    /// Whether a seat has readers, so that it stays as it is.
    fn is_read(&self) -> bool {
        self.holds == Holds::Seat && self.readers.load(Ordering::Acquire) != 0
    }

    /// What the library makes of a seat in another room.
    fn of_seat(&self, make: unsafe extern "C" fn(*mut Room, *mut Room), holds: Holds) -> Result<Raw, Refusal> {
        if self.holds != Holds::Seat {
            return Err(Refusal::BadBatch);
        }
        if self.process != process() {
            return Err(Refusal::Unavailable);
        }
        let _taken = self.records.try_borrow_mut().map_err(|_| Refusal::Busy)?;
        let mut room = Room::new();
        // SAFETY: this room holds a seat, and keeps it. A `Raw` is not `Sync` and its records are taken, so nobody else is at this
        // room. The other room is as for a kernel.
        unsafe {
            make(&mut **self.room.get(), &mut *room);
            Raw::of(room, holds)
        }
    }

    /// Does what the records ask for. Gives the number of the refusal, 0 for none. A seat asks again while another adds its call.
    fn serve(&self, records: &mut Records) -> u32 {
        // SAFETY: a boot made the room hold what the call requires, and each call keeps that. The records are taken, and the library
        // calls nothing of this crate, so no other call is made meanwhile: a `Raw` is not `Sync`. They are whole and have the layout
        // of the library's.
        unsafe {
            let room: *mut Room = &mut **self.room.get();
            if self.holds == Holds::Kernel {
                return histar_call(room, &records.request, &mut records.answer);
            }
            if self.holds == Holds::Reader {
                return histar_reader_call(room, &records.request, &mut records.answer);
            }
            for tries in 0..TRIES {
                match histar_seat_call(room, &records.request, &mut records.answer) {
                    BUSY if tries < TRIES_AT_ONCE => std::hint::spin_loop(),
                    BUSY if tries < TRIES_IN_TURN => std::thread::yield_now(),
                    BUSY => std::thread::sleep(Duration::from_millis(1)),
                    number => return number,
                }
            }
            BUSY
        }
    }

    /// Takes the kernel for calls, so that none of another comes between them. Where it is taken already, what `fill` asks for is
    /// refused.
    pub fn take(&self, fill: impl FnOnce(&mut Request)) -> Result<Taken<'_>, Refused> {
        match self.records.try_borrow_mut() {
            Ok(records) if self.process == process() && !self.is_read() => Ok(Taken { raw: self, records }),
            _ => Err(self.refuse(fill)),
        }
    }

    /// One call.
    pub fn ask<R>(&self, fill: impl FnOnce(&mut Request), read: impl FnOnce(&Answer) -> R) -> Result<R, Refused> {
        match self.records.try_borrow_mut() {
            Ok(records) if self.process == process() && !self.is_read() => Taken { raw: self, records }.ask(fill, read),
            _ => Err(self.refuse(fill)),
        }
    }

    /// What is asked for is refused: in a child of fork, or since another call uses the kernel, or a reader the seat.
    #[cold]
    fn refuse(&self, fill: impl FnOnce(&mut Request)) -> Refused {
        let mut request = Request::ZEROS;
        fill(&mut request);
        request.refused(if self.process == process() { Refusal::Busy } else { Refusal::Unavailable })
    }
}

impl Drop for Raw {
    fn drop(&mut self) {
        let room = &mut **self.room.get_mut();
        // SAFETY: a `Raw` is made of a room that a boot filled, and of no other.
        unsafe {
            match self.holds {
                Holds::Kernel => histar_end(room),
                Holds::Seat => histar_seat_end(room),
                Holds::Reader => histar_reader_end(room),
            }
        }
        if self.holds == Holds::Reader {
            self.readers.fetch_sub(1, Ordering::Release);
        }
        wipe(&mut room.0);
        self.records.get_mut().wipe();
        wipe_below(CALL_STACK);
    }
}

#[cfg(test)]
mod tests {
    use super::{suits, LAYOUT};

    #[test]
    fn a_library_with_more_of_the_same_meaning_suits() {
        assert!(suits(LAYOUT) && suits(LAYOUT + 1));
        assert!(!suits(LAYOUT - 1) && !suits(LAYOUT - 1000) && !suits(LAYOUT + 1000) && !suits(100));
    }
}
