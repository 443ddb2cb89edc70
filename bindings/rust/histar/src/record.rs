//! Write calls as bytes: for a journal, or a log that other machines play.
use crate::kernel::told;
use crate::raw::{LabelRecord, Request};
use crate::trusted::Thread;
use crate::{Call, Kernel, Refusal, Refused, Reply};

#[cfg(doc)]
use crate::Refusal::*;

/// A write call of a thread. Each record has one spelling as bytes, which has the fields that are not 0.
///
/// ```
/// use histar::trusted::{Record, Thread};
/// use histar::{Call, Kernel};
///
/// let record = Record::new(Thread::BOOT, &Call::CatCreate)?;
/// let mut bytes = Vec::new();
/// record.put(&mut bytes);
/// assert_eq!(bytes, [1, 2, 0]);
/// let again = Record::take(&mut &bytes[..]).unwrap();
/// assert_eq!(Kernel::boot(64)?.play(&again), Kernel::boot(64)?.play(&record));
/// # Ok::<(), histar::Refused>(())
/// ```
#[derive(Clone)]
pub struct Record(Box<Request>);

/// Adds a number: seven bits a byte, the least first.
fn put_number(out: &mut Vec<u8>, mut number: u64) {
    while number >= 128 {
        out.push(number as u8 | 128);
        number >>= 7;
    }
    out.push(number as u8);
}

/// Takes a number in its one spelling.
fn take_number(bytes: &mut &[u8]) -> Option<u64> {
    let mut number = 0u64;
    for (place, byte) in bytes.iter().take(10).enumerate() {
        let bits = u64::from(byte & 127);
        if bits << (7 * place) >> (7 * place) != bits {
            return None;
        }
        number |= bits << (7 * place);
        if byte & 128 == 0 {
            *bytes = &bytes[place + 1..];
            return (bits != 0 || place == 0).then_some(number);
        }
    }
    None
}

/// The same, of a number that is not 0.
fn take_some(bytes: &mut &[u8]) -> Option<u64> {
    take_number(bytes).filter(|number| *number != 0)
}

fn take<'a>(bytes: &mut &'a [u8], count: usize) -> Option<&'a [u8]> {
    let taken = bytes.get(..count)?;
    *bytes = &bytes[count..];
    Some(taken)
}

impl LabelRecord {
    fn is_zero(&self) -> bool {
        self.default_level == 0 && self.count == 0
    }

    fn put_spelled(&self, out: &mut Vec<u8>) {
        out.extend_from_slice(&[self.default_level, self.count]);
        for place in 0..usize::from(self.count) {
            put_number(out, self.categories[place]);
            out.push(self.levels[place]);
        }
    }

    fn take_spelled(bytes: &mut &[u8]) -> Option<LabelRecord> {
        let head = take(bytes, 2)?;
        let mut label = LabelRecord { default_level: head[0], count: head[1], ..LabelRecord::ZEROS };
        if label.count > 24 || label.is_zero() {
            return None;
        }
        for place in 0..usize::from(label.count) {
            label.categories[place] = take_number(bytes)?;
            label.levels[place] = take(bytes, 1)?[0];
        }
        Some(label)
    }
}

impl Request {
    fn words(&self) -> [u64; 9] {
        let n = &self.numbers;
        [self.container, self.object, self.other_container, self.other_object, n[0], n[1], n[2], n[3], n[4]]
    }

    fn set_words(&mut self, words: [u64; 9]) {
        [self.container, self.object, self.other_container, self.other_object] =
            [words[0], words[1], words[2], words[3]];
        self.numbers.copy_from_slice(&words[4..]);
    }
}

impl Record {
    /// The record of a thread's call.
    ///
    /// ```
    /// use histar::trusted::{Record, Thread};
    /// use histar::{Call, Refusal};
    /// assert!(Record::new(Thread::BOOT, &Call::CatCreate).is_ok());
    /// assert_eq!(Record::new(Thread::BOOT, &Call::SelfGet).unwrap_err().reason, Refusal::BadBatch);
    /// ```
    ///
    /// # Errors
    /// [`BadBatch`] where the call changes nothing, or the arguments make no call.
    pub fn new(thread: Thread, call: &Call<'_>) -> Result<Record, Refused> {
        let mut request = Box::new(Request::of(call));
        request.thread = thread.0;
        let labels = [&request.label, &request.clearance, &request.verify];
        if call.is_read() || request.len > 64 || labels.iter().any(|label| label.count > 24) {
            return Err(request.refused(Refusal::BadBatch));
        }
        Ok(Record(request))
    }

    /// The thread that calls.
    ///
    /// ```
    /// use histar::trusted::{Record, Thread};
    /// let record = Record::new(Thread(7), &histar::Call::CatCreate)?;
    /// assert_eq!(record.thread(), Thread(7));
    /// # Ok::<(), histar::Refused>(())
    /// ```
    pub fn thread(&self) -> Thread {
        Thread(self.0.thread)
    }

    /// Whether the call makes a thread.
    ///
    /// ```
    /// use histar::trusted::{Record, Thread};
    /// let record = Record::new(Thread::BOOT, &histar::Call::CatCreate)?;
    /// assert!(!record.makes_thread());
    /// # Ok::<(), histar::Refused>(())
    /// ```
    pub fn makes_thread(&self) -> bool {
        self.0.call == 9
    }

    /// Adds the bytes of the record.
    ///
    /// ```
    /// use histar::trusted::{Record, Thread};
    /// use histar::{Call, Entry, Object};
    /// let mut bytes = Vec::new();
    /// Record::new(Thread::BOOT, &Call::Unref { entry: Entry::in_root(Object(7)) })?.put(&mut bytes);
    /// assert_eq!(bytes, [12, 2, 3, 1, 7]);
    /// # Ok::<(), histar::Refused>(())
    /// ```
    pub fn put(&self, out: &mut Vec<u8>) {
        let request = &self.0;
        let labels = [&request.label, &request.clearance, &request.verify];
        let words = request.words();
        let mut mask = u64::from(request.len != 0) << 9;
        words.iter().enumerate().for_each(|(place, word)| mask |= u64::from(*word != 0) << place);
        labels.iter().enumerate().for_each(|(place, label)| mask |= u64::from(!label.is_zero()) << (10 + place));
        put_number(out, u64::from(request.call));
        put_number(out, request.thread);
        put_number(out, mask);
        words.iter().filter(|word| **word != 0).for_each(|word| put_number(out, *word));
        if request.len != 0 {
            put_number(out, u64::from(request.len));
            out.extend_from_slice(&request.bytes[..request.len as usize]);
        }
        labels.iter().filter(|label| !label.is_zero()).for_each(|label| label.put_spelled(out));
    }

    /// Takes a record from the front. Total: any bytes begin with one record or with none, and one that is taken is spelled so.
    ///
    /// ```
    /// use histar::trusted::{Record, Thread};
    /// let mut bytes = &[1, 2, 0, 99][..];
    /// assert_eq!(Record::take(&mut bytes).map(|it| it.thread()), Some(Thread(2)));
    /// assert_eq!(bytes, [99]);
    /// assert!(Record::take(&mut bytes).is_none());
    /// ```
    pub fn take(bytes: &mut &[u8]) -> Option<Record> {
        let rest = &mut *bytes;
        let mut request = Box::new(Request::ZEROS);
        request.call = take_number(rest).filter(|call| (1..=24).contains(call))? as u32;
        request.thread = take_number(rest)?;
        let mask = take_number(rest).filter(|mask| mask >> 13 == 0)?;
        let mut words = [0; 9];
        for (place, word) in words.iter_mut().enumerate() {
            if mask >> place & 1 == 1 {
                *word = take_some(rest)?;
            }
        }
        request.set_words(words);
        if mask >> 9 & 1 == 1 {
            let len = take_some(rest).filter(|len| *len <= 64)? as usize;
            request.len = len as u32;
            request.bytes[..len].copy_from_slice(take(rest, len)?);
        }
        let Request { label, clearance, verify, .. } = &mut *request;
        for (place, label) in [label, clearance, verify].into_iter().enumerate() {
            if mask >> (10 + place) & 1 == 1 {
                *label = LabelRecord::take_spelled(rest)?;
            }
        }
        Some(Record(request))
    }
}

/// It tells nothing of the call, which may have bytes in it.
impl std::fmt::Debug for Record {
    fn fmt(&self, f: &mut std::fmt::Formatter<'_>) -> std::fmt::Result {
        f.debug_struct("Record").field("thread", &self.thread()).finish_non_exhaustive()
    }
}

impl Kernel {
    /// The call of a record.
    ///
    /// ```
    /// use histar::trusted::{Record, Thread};
    /// use histar::{Call, Category, Kernel, Refusal, Reply};
    /// let kernel = Kernel::boot(64)?;
    /// let play = |thread| kernel.play(&Record::new(thread, &Call::CatCreate)?);
    /// assert_eq!(play(Thread::BOOT), Ok(Reply::Category(Category(1))));
    /// assert_eq!(play(Thread(99)).unwrap_err().reason, Refusal::Halted);
    /// # Ok::<(), histar::Refused>(())
    /// ```
    ///
    /// # Errors
    /// As [`call`](Kernel::call); and [`BadBatch`] where the record's numbers make no call.
    pub fn play(&self, record: &Record) -> Result<Reply, Refused> {
        self.raw.ask(|request| request.clone_from(&record.0), told)
    }
}
