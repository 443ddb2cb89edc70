//! Bytes that a call answers.
use std::fmt;
use std::ops::Deref;

/// Up to 64 bytes that were read or received. They stand in the value itself, so they take no memory beside it.
#[derive(Clone, Copy)]
pub struct Bytes {
    len: u8,
    bytes: [u8; 64],
}

impl Bytes {
    /// At most 64 bytes.
    pub(crate) fn new(bytes: &[u8]) -> Bytes {
        let mut all = [0; 64];
        all[..bytes.len()].copy_from_slice(bytes);
        Bytes { len: bytes.len() as u8, bytes: all }
    }
}

impl Deref for Bytes {
    type Target = [u8];

    fn deref(&self) -> &[u8] {
        &self.bytes[..usize::from(self.len)]
    }
}

impl AsRef<[u8]> for Bytes {
    fn as_ref(&self) -> &[u8] {
        self
    }
}

/// How many bytes there are: what is printed of them, since they may be secret.
pub(crate) struct Length(pub usize);

impl fmt::Debug for Length {
    fn fmt(&self, f: &mut fmt::Formatter<'_>) -> fmt::Result {
        write!(f, "{} bytes", self.0)
    }
}

/// It tells how many there are, and none of them.
impl fmt::Debug for Bytes {
    fn fmt(&self, f: &mut fmt::Formatter<'_>) -> fmt::Result {
        Length(self.len()).fmt(f)
    }
}

impl<T: AsRef<[u8]> + ?Sized> PartialEq<T> for Bytes {
    fn eq(&self, other: &T) -> bool {
        self[..] == *other.as_ref()
    }
}

impl Eq for Bytes {}
