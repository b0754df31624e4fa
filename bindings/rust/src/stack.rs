//! The stack of the caller's thread, and work that needs more of it than a thread of Rust may have.
#![allow(unsafe_code)]
use std::thread;

use crate::Error;

/// The stack that a call which publishes, explains or frees may need, with room to spare: the library needs 512 KiB.
const ENOUGH: usize = 640 << 10;
/// The stack of a thread that is started for such a call.
const LARGE: usize = 2 << 20;

/// Runs work on a thread of its own.
fn on_large_stack<T: Send>(work: impl FnOnce() -> Result<T, Error> + Send) -> Result<T, Error> {
    thread::scope(|scope| match thread::Builder::new().stack_size(LARGE).spawn_scoped(scope, work) {
        Ok(worker) => worker.join().unwrap_or_else(|fault| std::panic::resume_unwind(fault)),
        Err(_) => Err(Error::Memory),
    })
}

/// Runs work on the caller's thread where that has enough stack for it, or else on a thread of its own.
pub(crate) fn on_enough_stack<T: Send>(work: impl FnOnce() -> Result<T, Error> + Send) -> Result<T, Error> {
    if system::free_stack() >= ENOUGH {
        return work();
    }
    on_large_stack(work)
}

#[cfg(target_os = "linux")]
mod system {
    use std::cell::Cell;
    use std::ffi::{c_int, c_ulong, c_void};
    use std::ptr;

    /// `pthread_attr_t`, which has at most 64 bytes, with room to spare.
    #[repr(C)]
    struct Attributes([u64; 32]);

    extern "C" {
        fn pthread_self() -> c_ulong;
        fn pthread_getattr_np(thread: c_ulong, attributes: *mut Attributes) -> c_int;
        fn pthread_attr_getstack(attributes: *const Attributes, lowest: *mut *mut c_void, size: *mut usize) -> c_int;
        fn pthread_attr_destroy(attributes: *mut Attributes) -> c_int;
    }

    thread_local! {
        static LOWEST: Cell<Option<usize>> = const { Cell::new(None) };
    }

    /// The stack that this thread has left, in bytes; 0 where the system does not say it.
    pub(super) fn free_stack() -> usize {
        let here = 0_u8;
        let lowest = LOWEST.try_with(|kept| {
            kept.get().unwrap_or_else(|| {
                let lowest = lowest_address();
                kept.set(Some(lowest));
                lowest
            })
        });
        (ptr::addr_of!(here) as usize).saturating_sub(lowest.unwrap_or(usize::MAX))
    }

    /// The lowest address of the stack of this thread. Where the system does not say it, it is above all others.
    fn lowest_address() -> usize {
        let mut attributes = Attributes([0; 32]);
        let (mut lowest, mut size) = (ptr::null_mut(), 0);
        // SAFETY: the thread is this one, which runs, and the addresses are those of local variables that are large enough. The attributes
        // are read, and then destroyed, only where the first call has made them.
        unsafe {
            if pthread_getattr_np(pthread_self(), &mut attributes) != 0 {
                return usize::MAX;
            }
            let failed = pthread_attr_getstack(&attributes, &mut lowest, &mut size) != 0;
            pthread_attr_destroy(&mut attributes);
            if failed {
                usize::MAX
            } else {
                lowest as usize
            }
        }
    }
}

#[cfg(not(target_os = "linux"))]
mod system {
    /// No stack is known to be left.
    pub(super) fn free_stack() -> usize {
        0
    }
}
