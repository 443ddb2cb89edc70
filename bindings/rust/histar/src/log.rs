//! The log of a kernel's calls, and its checkpoints.
use crate::raw::{wipe_below, wipe_text, Raw, Taken, TEXT_STACK};
use crate::{Entry, Kernel, Refused};
use std::io;

#[cfg(doc)]
use crate::Refusal::*;

/// What a log keeps.
#[derive(Clone, Copy, PartialEq, Eq, Debug)]
pub enum Keep {
    /// Write calls.
    Writes,
    /// Write calls and reads.
    All,
}

/// The log: each write call since the boot, refused or not, with its answer, and each read where all are kept. Its dump is the text that `./histar run --dump`
/// writes of a run, and `histar-audit` tells whether its answers are those of the rules.
///
/// ```
/// let kernel = histar::Kernel::boot(64)?;
/// kernel.log_on(100, histar::Keep::Writes)?;
/// kernel.session().cat_create()?;
/// assert!(kernel.dump()?.contains("cat_create => cat #1"));
/// # Ok::<(), histar::Refused>(())
/// ```
impl Kernel {
    /// Asks for what is answered by nothing.
    fn ask_log(&self, part: u32, most: u64, keep: Keep) -> Result<(), Refused> {
        let keeps = u64::from(keep == Keep::All);
        self.raw.ask(|request| request.put(part, &Entry::NONE, [most, keeps]), |_| ())
    }

    /// Begins the log, of `most` calls at most, before the first write call. From here on each call that is kept takes memory. One past the
    /// bound is refused [`LogFull`] and not made; [`cut_log`](Kernel::cut_log) makes room. `u64::MAX` is no bound.
    ///
    /// ```
    /// use histar::{Kernel, Refusal};
    /// let (kernel, late) = (Kernel::boot(64)?, Kernel::boot(64)?);
    /// kernel.log_on(1, histar::Keep::Writes)?;
    /// kernel.session().cat_create()?;
    /// assert_eq!(kernel.session().cat_create().unwrap_err().reason, Refusal::LogFull);
    /// late.session().cat_create()?;
    /// assert_eq!(late.log_on(1, histar::Keep::Writes).unwrap_err().reason, Refusal::BadBatch);
    /// # Ok::<(), histar::Refused>(())
    /// ```
    ///
    /// # Errors
    /// [`BadBatch`] where a write call was made already.
    pub fn log_on(&self, most: u64, keep: Keep) -> Result<(), Refused> {
        self.ask_log(40, most, keep)
    }

    /// Begins the log anew at the kernel as it stands, of `most` calls at most, so that the memory of its calls is given back: its dump
    /// has the checkpoint of this moment, and the calls from here on that are kept. Where no log was kept, one begins, in which each thread's first event has number 1.
    ///
    /// ```
    /// let kernel = histar::Kernel::boot(64)?;
    /// kernel.log_on(100, histar::Keep::Writes)?;
    /// kernel.session().cat_create()?;
    /// kernel.cut_log(100, histar::Keep::Writes)?;
    /// kernel.session().cat_create()?;
    /// let dump = kernel.dump()?;
    /// assert!(dump.contains("event 2 2 cat_create => cat #2\n") && !dump.contains("event 2 1 "));
    /// # Ok::<(), histar::Refused>(())
    /// ```
    ///
    /// # Errors
    /// [`Memory`] where there is none for that, and the log is as before.
    pub fn cut_log(&self, most: u64, keep: Keep) -> Result<(), Refused> {
        self.ask_log(49, most, keep)
    }

    /// The text of a checkpoint: the kernel's limits and state, with all that segments hold, so keep it as you would the kernel. Where a log
    /// is kept it has the number of each thread's next call too. It is a dump without calls: `histar-audit` finds it clean, and
    /// [`open_at`](Kernel::open_at) opens it.
    ///
    /// ```
    /// let kernel = histar::Kernel::boot(64)?;
    /// kernel.session().cat_create()?;
    /// assert!(kernel.checkpoint()?.starts_with("histar-dump 2\nlimits 64 "));
    /// # Ok::<(), histar::Refused>(())
    /// ```
    ///
    /// # Errors
    /// [`TextMemory`] where the library has no memory for the text.
    pub fn checkpoint(&self) -> Result<String, Refused> {
        self.text(CHECKPOINT)
    }

    /// Writes the text of a [`checkpoint`](Kernel::checkpoint), as [`dump_to`](Kernel::dump_to) writes a dump's.
    ///
    /// ```
    /// let kernel = histar::Kernel::boot(64)?;
    /// let mut text = Vec::new();
    /// kernel.checkpoint_to(&mut text)?;
    /// assert_eq!(text, kernel.checkpoint()?.as_bytes());
    /// # Ok::<(), std::io::Error>(())
    /// ```
    ///
    /// # Errors
    /// As [`checkpoint`](Kernel::checkpoint), and what `out` gives.
    pub fn checkpoint_to(&self, out: &mut impl io::Write) -> io::Result<()> {
        self.pieces(CHECKPOINT, |piece| out.write_all(piece))
    }

    /// A kernel at a text that [`checkpoint`](Kernel::checkpoint) gave, on this machine or another: it has the limits of the kernel that was
    /// written down and is in its state, so every read is answered the same, and ids and categories go on. No log is kept until
    /// [`log_on`](Kernel::log_on), whose dump begins at the checkpoint, and in which threads' numbers go on. A dump of `./histar run` opens
    /// too where it has no events: one without a checkpoint opens a kernel that was just booted. What `histar-audit` finds clean and has no events is always opened, and a
    /// text that may have been changed is for it to judge, since another one may open too.
    ///
    /// ```
    /// use histar::{label, Entry, Kernel, Object, Refusal};
    /// let kernel = Kernel::boot(64)?;
    /// let note = kernel.session().segment_create(Object::ROOT, &label! { L1 }, 2, 1)?;
    /// kernel.session().segment_write(Entry::in_root(note), 0, b"kept")?;
    /// let text = kernel.checkpoint()?;
    /// drop(kernel);
    ///
    /// let kernel = Kernel::open_at(&text)?;
    /// assert_eq!(kernel.session().segment_read(Entry::in_root(note), 0, 4)?, b"kept");
    /// assert_eq!(kernel.session().container_create(Object::ROOT, &label! { L1 }, 1, Default::default())?, Object(note.0 + 1));
    /// assert_eq!(Kernel::open_at(&text[1..]).unwrap_err().reason, Refusal::TextFault);
    /// # Ok::<(), histar::Refused>(())
    /// ```
    ///
    /// # Errors
    /// [`TextFault`] where the text is no dump, as one that is cut short; [`HasEvents`] where events come after the checkpoint;
    /// [`IllFormed`] where no calls lead to what it says; and [`Unavailable`] for want of memory.
    pub fn open_at(text: impl AsRef<[u8]>) -> Result<Kernel, Refused> {
        let raw = Raw::boot_at(text.as_ref()).map_err(|why| Refused::of("open_at", why))?;
        Ok(Kernel { raw })
    }

    /// The dump of the log. The log stays as it is, so it may be dumped again, and calls may follow.
    ///
    /// ```
    /// use histar::{Entry, Kernel, Object, Refusal};
    /// let kernel = Kernel::boot(64)?;
    /// assert_eq!(kernel.dump().unwrap_err().reason, Refusal::BadBatch);
    /// kernel.log_on(100, histar::Keep::Writes)?;
    /// assert!(kernel.session().unref(Entry::in_root(Object::ROOT)).is_err());
    /// assert!(kernel.dump()?.contains("event 2 1 unref #1 #1 => refused 16 RootKept\n"));
    /// # Ok::<(), histar::Refused>(())
    /// ```
    ///
    /// # Errors
    /// [`BadBatch`] where no log was begun, and [`TextMemory`] where the library has no memory for the text.
    pub fn dump(&self) -> Result<String, Refused> {
        self.text(DUMP)
    }

    /// Writes the [`dump`](Kernel::dump) of the log piece by piece, so that it stands nowhere whole: beside the log memory is taken for up
    /// to 64 events of it, or for the kernel's state. It is that of the log as it stands: a call that `out` makes is refused [`Busy`].
    ///
    /// ```
    /// let kernel = histar::Kernel::boot(64)?;
    /// kernel.log_on(100, histar::Keep::Writes)?;
    /// kernel.session().cat_create()?;
    /// let mut text = Vec::new();
    /// kernel.dump_to(&mut text)?;
    /// assert_eq!(text, kernel.dump()?.as_bytes());
    /// # Ok::<(), std::io::Error>(())
    /// ```
    ///
    /// # Errors
    /// As [`dump`](Kernel::dump), and what `out` gives; what was written before stays.
    pub fn dump_to(&self, out: &mut impl io::Write) -> io::Result<()> {
        self.pieces(DUMP, |piece| out.write_all(piece))
    }

    /// Has the library make a text, and gives each part of it, of which none is large. No call comes between them.
    fn pieces<E: From<Refused>>(&self, part: u32, mut put: impl FnMut(&[u8]) -> Result<(), E>) -> Result<(), E> {
        let taken = self.raw.take(|request| request.put(part, &Entry::NONE, []))?;
        let mut text = Text { taken, part, is_over: false, bytes: Vec::with_capacity(PART) };
        for number in 0.. {
            let len = text.cut(number)?;
            if len == 0 {
                text.is_over = true;
                break;
            }
            text.give(len, &mut put)?;
        }
        Ok(())
    }

    /// A text that the library makes, of which no other copy is left: how long it is is asked first.
    fn text(&self, part: u32) -> Result<String, Refused> {
        let mut len = 0;
        self.pieces(part, |piece| {
            len += piece.len();
            Ok::<(), Refused>(())
        })?;
        let mut text = Vec::with_capacity(len);
        self.pieces(part, |piece| {
            text.extend_from_slice(piece);
            Ok::<(), Refused>(())
        })?;
        Ok(String::from_utf8(text).unwrap_or_else(|_| unreachable!("the library's texts have no letter beyond ASCII")))
    }
}

/// What is asked for a piece of a dump, for one of a checkpoint, and for some bytes of the piece that was made last.
const DUMP: u32 = 41;
const CHECKPOINT: u32 = 48;
const BYTES: u32 = 42;

/// How much of a text is given at once.
const PART: usize = 4096;

/// A text that the library makes piece by piece, with the part that is given. Where it ends early, as by a panic of what it goes to, the library
/// keeps none of it.
struct Text<'a> {
    taken: Taken<'a>,
    part: u32,
    is_over: bool,
    bytes: Vec<u8>,
}

impl Text<'_> {
    /// Makes a piece. How long it is: 0 past the last.
    fn cut(&mut self, number: u64) -> Result<usize, Refused> {
        let len =
            self.taken.ask(|request| request.put(self.part, &Entry::NONE, [number]), |answer| answer.numbers[0])?;
        Ok(len as usize)
    }

    /// Gives the piece that was made last, in parts.
    fn give<E: From<Refused>>(&mut self, len: usize, put: &mut impl FnMut(&[u8]) -> Result<(), E>) -> Result<(), E> {
        let mut from = 0;
        while from < len {
            let bytes = &mut self.bytes;
            self.taken.ask(
                |request| request.put(BYTES, &Entry::NONE, [from as u64]),
                |answer| bytes.extend_from_slice(answer.data()),
            )?;
            from += 64;
            if from >= len || self.bytes.len() + 64 > PART {
                put(&self.bytes)?;
                self.bytes.clear();
            }
        }
        Ok(())
    }
}

impl Drop for Text<'_> {
    fn drop(&mut self) {
        if !self.is_over {
            let _ = self.cut(u64::MAX);
        }
        self.bytes.resize(PART, 0);
        wipe_text(&mut self.bytes);
        wipe_below(TEXT_STACK);
    }
}
