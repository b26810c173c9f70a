//! A handle that frees what stands behind it.
//!
//! What who calls the library owes it (docs/C.md, "What C owes", "Threads" and "Handles", and the head of cf.h) has a name here, by which each
//! `unsafe` of this crate says what it meets:
//!
//! - *alone*: one call at a time has a handle, in one thread, and none is copied and used twice. A [`Handle`] is the only owner of what stands
//!   behind it, isn't `Clone`, and lends it to a call by `&mut`. It moves between threads by `Send`, and safe code can't do that without an
//!   order between the two. No call runs a function of a user, so none has a handle while one runs, and what is forgotten isn't used again.
//! - *apart*: the handles of one call are different ones. They are lent by two `&mut`.
//! - *one desk*: callers that meet, and those that close a desk, are of one. Each keeps a pointer to what it has in common with the others of
//!   its desk alone, and that is compared first.
//! - *pointers*: each is aligned, and to as many elements as said, in memory that no other call uses meanwhile: a local, or a slice with its
//!   length.
//! - *unwritten*: nothing is written into a handle but the 0 of an empty one. Its fields are private to cf-sys.
//! - *this library*: what is linked is the library that cf-sys declares. That is compared before the first call ([`checked`]), and no call
//!   that has a handle comes before the one that made it.
//!
//! The rest no safe code can break: it makes no call in a signal handler or in the child of a fork, since it installs none and doesn't fork,
//! and what the library allocates it frees itself.
//!
//! [`checked`]: crate::refused::checked
use crate::refused::{ok_or_refused, Refused};
use cf_sys as sys;

/// Each call takes the handle by `&mut`, so that one call at a time has it; nothing copies it.
#[derive(Debug)]
pub(crate) struct Handle(sys::cf_handle);

// SAFETY: alone: what stands behind a handle is one thread's at a time, and may go to another.
unsafe impl Send for Handle {}
// SAFETY: alone: no call is made by a shared reference.
unsafe impl Sync for Handle {}

impl Handle {
    pub(crate) fn empty() -> Handle {
        Handle(sys::cf_handle::EMPTY)
    }

    /// Of a handle that nobody uses any more.
    pub(crate) fn owning(handle: sys::cf_handle) -> Handle {
        Handle(handle)
    }

    /// Makes a call on the handle, which answers a code.
    pub(crate) fn call(&mut self, call: impl FnOnce(*mut sys::cf_handle) -> u32) -> Result<(), Refused> {
        ok_or_refused(call(&mut self.0))
    }

    /// Makes a call on the handle, which tells something where it isn't refused.
    #[inline]
    pub(crate) fn tell<T: Default>(&mut self, call: impl FnOnce(*mut sys::cf_handle, *mut T) -> u32) -> Result<T, Refused> {
        let mut told = T::default();
        ok_or_refused(call(&mut self.0, &mut told))?;
        Ok(told)
    }
}

impl Drop for Handle {
    fn drop(&mut self) {
        // SAFETY: alone: the handle is this value's, and `cf_free` takes any, an empty one too.
        unsafe { sys::cf_free(&mut self.0) }
    }
}
