//! Stand-in for the part of the crate heapless that the published files use. It is ours: see docs/DIFFERENCES.md.
//! `From<&str>` stops past N bytes, as cgnapn.rs says of heapless; `write_str` fails past N and leaves the text as it was.

use std::fmt;
use std::mem::MaybeUninit;

/// The bytes behind `len` are not set, as in heapless: clearing them would cost the Rust time in the benchmark.
pub struct String<const N: usize> {
    bytes: [MaybeUninit<u8>; N],
    len: usize,
}

impl<const N: usize> String<N> {
    pub fn new() -> Self {
        String { bytes: [MaybeUninit::uninit(); N], len: 0 }
    }

    pub fn as_str(&self) -> &str {
        // Only whole `str`s are ever pushed, and they set the first `len` bytes.
        unsafe { std::str::from_utf8_unchecked(std::slice::from_raw_parts(self.bytes.as_ptr() as *const u8, self.len)) }
    }

    pub fn push_str(&mut self, text: &str) -> Result<(), ()> {
        if text.len() > N - self.len {
            return Err(());
        }
        let free = self.bytes[self.len..].as_mut_ptr() as *mut u8;
        // As many bytes as `text` has are free, and it lies elsewhere.
        unsafe { std::ptr::copy_nonoverlapping(text.as_ptr(), free, text.len()) };
        self.len += text.len();
        Ok(())
    }
}

impl<const N: usize> From<&str> for String<N> {
    fn from(text: &str) -> Self {
        let mut new = String::new();
        new.push_str(text).unwrap();
        new
    }
}

impl<const N: usize> fmt::Write for String<N> {
    fn write_str(&mut self, text: &str) -> fmt::Result {
        self.push_str(text).map_err(|_| fmt::Error)
    }
}

impl<const N: usize> std::ops::Deref for String<N> {
    type Target = str;
    fn deref(&self) -> &str {
        self.as_str()
    }
}

impl<const N: usize> fmt::Display for String<N> {
    fn fmt(&self, f: &mut fmt::Formatter<'_>) -> fmt::Result {
        fmt::Display::fmt(self.as_str(), f)
    }
}

impl<const N: usize> fmt::Debug for String<N> {
    fn fmt(&self, f: &mut fmt::Formatter<'_>) -> fmt::Result {
        fmt::Debug::fmt(self.as_str(), f)
    }
}
