//! A receipt on its way: to a thread that waits for it, or to a task.
use crate::Receipt;
use std::future::Future;
use std::pin::Pin;
use std::sync::{Arc, Condvar, Mutex, MutexGuard, PoisonError};
use std::task::{Context, Poll, Waker};
use std::time::{Duration, Instant};

enum State<R> {
    /// It is not known yet. The task that is woken once it is.
    Unknown(Option<Waker>),
    Known(Receipt<R>),
    /// It never will be, or was taken.
    Gone,
}

struct Slot<R> {
    state: Mutex<State<R>>,
    is_settled: Condvar,
}

impl<R> Slot<R> {
    fn state(&self) -> MutexGuard<'_, State<R>> {
        self.state.lock().unwrap_or_else(PoisonError::into_inner)
    }

    fn settle(&self, settled: State<R>) {
        let before = std::mem::replace(&mut *self.state(), settled);
        self.is_settled.notify_all();
        if let State::Unknown(Some(waker)) = before {
            waker.wake();
        }
    }
}

/// Takes the receipt, unless it is not known yet.
fn taken<R>(state: &mut State<R>) -> Option<Option<Receipt<R>>> {
    if matches!(state, State::Unknown(_)) {
        return None;
    }
    match std::mem::replace(state, State::Gone) {
        State::Known(receipt) => Some(Some(receipt)),
        _ => Some(None),
    }
}

/// The receipt that a caller waits for: as a thread, or as a task of any runtime, to which it is a future.
pub struct Waiting<R>(Arc<Slot<R>>);

/// Why there is no receipt.
#[derive(Clone, Copy, PartialEq, Eq, Debug)]
pub enum Unsettled {
    /// It is not known yet. One may wait again.
    Late,
    /// The node stopped before it was known.
    Never,
}

/// Who tells it. Nobody does where this is dropped before.
pub(crate) struct Teller<R>(Arc<Slot<R>>);

/// A receipt that is not known yet.
pub(crate) fn waiting<R>() -> (Teller<R>, Waiting<R>) {
    let slot = Arc::new(Slot { state: Mutex::new(State::Unknown(None)), is_settled: Condvar::new() });
    (Teller(slot.clone()), Waiting(slot))
}

impl<R> Teller<R> {
    pub fn tell(self, receipt: Receipt<R>) {
        self.0.settle(State::Known(receipt));
    }
}

impl<R> Drop for Teller<R> {
    fn drop(&mut self) {
        if matches!(*self.0.state(), State::Unknown(_)) {
            self.0.settle(State::Gone);
        }
    }
}

impl<R> Waiting<R> {
    /// Waits for the receipt. None where the node stopped before it was known.
    pub fn wait(self) -> Option<Receipt<R>> {
        let mut state = self.0.state();
        loop {
            if let Some(receipt) = taken(&mut state) {
                return receipt;
            }
            state = self.0.is_settled.wait(state).unwrap_or_else(PoisonError::into_inner);
        }
    }

    /// The same, for so long at most. Where it is late, the items may still be played, and one may wait again.
    ///
    /// # Errors
    /// Why there is no receipt.
    pub fn wait_for(&self, time: Duration) -> Result<Receipt<R>, Unsettled> {
        let began = Instant::now();
        let mut state = self.0.state();
        loop {
            if let Some(receipt) = taken(&mut state) {
                return receipt.ok_or(Unsettled::Never);
            }
            let left = time.checked_sub(began.elapsed()).ok_or(Unsettled::Late)?;
            state = self.0.is_settled.wait_timeout(state, left).unwrap_or_else(PoisonError::into_inner).0;
        }
    }
}

/// The receipt. None where the node stopped before it was known.
impl<R> Future for Waiting<R> {
    type Output = Option<Receipt<R>>;

    fn poll(self: Pin<&mut Self>, context: &mut Context<'_>) -> Poll<Self::Output> {
        let mut state = self.0.state();
        match taken(&mut state) {
            Some(receipt) => Poll::Ready(receipt),
            None => {
                *state = State::Unknown(Some(context.waker().clone()));
                Poll::Pending
            }
        }
    }
}

#[cfg(test)]
mod tests {
    use super::*;
    use std::sync::atomic::{AtomicUsize, Ordering};
    use std::task::Wake;

    struct Woken(AtomicUsize);

    impl Wake for Woken {
        fn wake(self: Arc<Self>) {
            self.0.fetch_add(1, Ordering::Relaxed);
        }
    }

    #[test]
    fn a_task_is_woken_once_its_receipt_is_known_or_never_will_be() {
        for is_told in [true, false] {
            let woken = Arc::new(Woken(AtomicUsize::new(0)));
            let waker = woken.clone().into();
            let mut context = Context::from_waker(&waker);
            let (teller, mut waiting) = waiting::<u64>();
            assert_eq!(Pin::new(&mut waiting).poll(&mut context), Poll::Pending);
            if is_told {
                teller.tell(Receipt::NeverMade);
            } else {
                drop(teller);
            }
            assert_eq!(woken.0.load(Ordering::Relaxed), 1);
            let told = is_told.then_some(Receipt::NeverMade);
            assert_eq!(Pin::new(&mut waiting).poll(&mut context), Poll::Ready(told));
        }
    }

    #[test]
    fn a_receipt_survives_a_wait() {
        let (teller, waiting) = waiting::<u64>();
        assert_eq!(waiting.wait_for(Duration::from_millis(1)), Err(Unsettled::Late));
        let thread = std::thread::spawn(move || waiting.wait());
        teller.tell(Receipt::Unknown);
        assert_eq!(thread.join().expect("no waiter panics"), Some(Receipt::Unknown));
        let (teller, waiting) = super::waiting::<u64>();
        drop(teller);
        assert_eq!(waiting.wait_for(Duration::MAX), Err(Unsettled::Never));
    }
}
