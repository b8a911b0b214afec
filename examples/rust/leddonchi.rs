//! `leddonchi.h` for Rust: a table with handles, each in one thread at a time.
//!
//! That this wrapper is safe is by review, not proved. The library tests what it is handed, and asks four things of its caller:
//!
//! - A handle is in one call at a time, and goes to another thread by an ordering. Each call takes `&mut Handle`, and a `Handle` is `Send`
//!   and not `Sync`: whatever moves it between threads orders.
//! - A handle is all 0 bytes or as a call left it. Handles are made of zeros in a list, in which the table is opened, and stay there; a `Handle` is
//!   its place in that list, and there is one of each.
//! - Pointers point to what their lengths say, and are never null: they are those of slices.
//! - Slices and handles of a call lie apart: the room for holders is a list of the call's own, and so is a copy of the right key.
//!
//! Behind `Refusal::Busy` whoever calls backs off, and calls again.

use std::ffi::c_void;
use std::cell::UnsafeCell;
use std::sync::Arc;

/// How many holders an ask has room for at first.
const ROOM: usize = 8;

#[repr(C)]
struct RawHandle {
    is_open: bool,
    at: *mut c_void,
}

#[repr(C)]
#[derive(Clone, Copy)]
struct RawAnswer {
    status: u32,
    joins: u32,
    count: u64,
    place: u64,
    row: u32,
    holder: u32,
}

unsafe extern "C" {
    fn lt_open(handles: *mut RawHandle, len: usize, trees: u32, limit: u64, buffer: u64) -> RawAnswer;
    fn lt_ask(
        handle: *mut RawHandle,
        txn: u64,
        tree: u32,
        left: *const u8,
        left_len: usize,
        right: *const u8,
        right_len: usize,
        holders: *mut u64,
        holders_len: usize,
    ) -> RawAnswer;
    fn lt_free(
        handle: *mut RawHandle,
        txn: u64,
        tree: u32,
        left: *const u8,
        left_len: usize,
        right: *const u8,
        right_len: usize,
        first: bool,
    ) -> RawAnswer;
    fn lt_release(handle: *mut RawHandle, txn: u64, tree: u32) -> RawAnswer;
    fn lt_escalate(handle: *mut RawHandle, txn: u64, tree: u32) -> RawAnswer;
    fn lt_look(handle: *mut RawHandle) -> RawAnswer;
    fn lt_close(handle: *mut RawHandle) -> RawAnswer;
}

/// The heap that the library calls, over the C library's. Several threads may call it at once.
mod heap {
    use std::ffi::c_void;

    #[repr(C)]
    pub struct Tried {
        ok: bool,
        at: *mut c_void,
    }

    unsafe extern "C" {
        fn malloc(size: usize) -> *mut c_void;
        fn realloc(at: *mut c_void, size: usize) -> *mut c_void;
        fn free(at: *mut c_void);
    }

    static NOTHING: u8 = 0;

    fn tried(at: *mut c_void) -> Tried {
        if at.is_null() {
            Tried { ok: false, at: (&raw const NOTHING).cast_mut().cast() }
        } else {
            Tried { ok: true, at }
        }
    }

    #[unsafe(no_mangle)]
    extern "C" fn rattle_alloc(size: usize, align: usize) -> Tried {
        // SAFETY: malloc may be called with any size; the library asks for no alignment above that of malloc.
        tried(unsafe { malloc(if size == 0 { align } else { size }) })
    }

    #[unsafe(no_mangle)]
    extern "C" fn rattle_realloc(at: *mut c_void, _old: usize, size: usize, align: usize) -> Tried {
        // SAFETY: the library hands back what it was given by one of these.
        tried(unsafe { realloc(at, if size == 0 { align } else { size }) })
    }

    #[unsafe(no_mangle)]
    extern "C" fn rattle_dealloc(at: *mut c_void) {
        // SAFETY: the library hands back what it was given by one of these, once.
        unsafe { free(at) }
    }
}

/// Why a call made no event.
#[derive(Clone, Copy, Debug, PartialEq, Eq)]
pub enum Refusal {
    /// A row was held by another handle: call again later.
    Busy,
    BadArgument,
    OutOfMemory,
    /// The rows in use have reached the limit, behind joins of all trees.
    OutOfLocks,
    HistoryFull,
}

/// What an ask was answered.
#[derive(Clone, Debug, PartialEq, Eq)]
pub enum Asked {
    Granted,
    /// Granted, in a buffer of the transaction's own.
    Buffered,
    /// These transactions hold a key of the range, ascending.
    Held(Vec<u64>),
}

fn refusal(answer: RawAnswer) -> Option<Refusal> {
    match answer.status {
        0..=3 => None,
        4 => Some(Refusal::Busy),
        101 => Some(Refusal::OutOfMemory),
        102 => Some(Refusal::OutOfLocks),
        103 => Some(Refusal::HistoryFull),
        _ => Some(Refusal::BadArgument),
    }
}

/// The count that a call told.
fn count(answer: RawAnswer) -> Result<u64, Refusal> {
    refusal(answer).map_or(Ok(answer.count), Err)
}

/// The handles of a table, each in its place.
struct Places(Box<[UnsafeCell<RawHandle>]>);

// SAFETY: each place is reached by one `Handle` alone.
unsafe impl Send for Places {}
unsafe impl Sync for Places {}

/// A thread's part in a table. The table is gone with its last handle.
pub struct Handle {
    _places: Arc<Places>,
    /// Its place. A pointer, so that a handle may go to another thread, by `Send` below, and is not shared.
    raw: *mut RawHandle,
}

// SAFETY: a handle has no tie to a thread; the library asks that its calls are ordered, which moving it between threads is.
unsafe impl Send for Handle {}

/// Opens a table of so many trees with so many handles.
///
/// # Errors
/// A number out of its range (1 to 17 handles), or want of memory.
pub fn open(handles: usize, trees: u32, limit: u64, buffer: u64) -> Result<Vec<Handle>, Refusal> {
    if !(1..=17).contains(&handles) {
        return Err(Refusal::BadArgument);
    }
    let shut = || UnsafeCell::new(RawHandle { is_open: false, at: std::ptr::null_mut() });
    let places = Arc::new(Places((0..handles).map(|_| shut()).collect()));
    // SAFETY: the list has so many handles, each all 0 bytes, and nobody else has it yet.
    let answer = unsafe { lt_open(UnsafeCell::raw_get(places.0.as_ptr()), handles, trees, limit, buffer) };
    count(answer)?;
    Ok(places.0.iter().map(|place| Handle { _places: Arc::clone(&places), raw: place.get() }).collect())
}

impl Handle {
    /// Asks for a range. Where it is held by more than there was room for, it asks once more.
    ///
    /// # Errors
    /// There was no event, or but joins.
    pub fn ask(&mut self, txn: u64, tree: u32, left: &[u8], right: &[u8]) -> Result<Asked, Refusal> {
        let right = right.to_vec();
        let mut holders = vec![0; ROOM];
        loop {
            // SAFETY: slices with their lengths, and a handle that nobody else has.
            let answer = unsafe {
                lt_ask(
                    self.raw,
                    txn,
                    tree,
                    left.as_ptr(),
                    left.len(),
                    right.as_ptr(),
                    right.len(),
                    holders.as_mut_ptr(),
                    holders.len(),
                )
            };
            let found = count(answer)? as usize;
            match answer.status {
                0 => return Ok(Asked::Granted),
                1 => return Ok(Asked::Buffered),
                _ if found <= holders.len() => {
                    holders.truncate(found);
                    return Ok(Asked::Held(holders));
                }
                _ => holders = vec![0; found],
            }
        }
    }

    /// Frees the transaction's ranges that overlap this one, and tells how many went. The first free of a release in a tree is marked.
    ///
    /// # Errors
    /// There was no event.
    pub fn free(&mut self, txn: u64, tree: u32, left: &[u8], right: &[u8], first: bool) -> Result<u64, Refusal> {
        let right = right.to_vec();
        // SAFETY: slices with their lengths, and a handle that nobody else has.
        count(unsafe { lt_free(self.raw, txn, tree, left.as_ptr(), left.len(), right.as_ptr(), right.len(), first) })
    }

    /// Frees all that the transaction holds in the tree, by one event, and tells how many ranges went. It goes through all rows of the tree.
    ///
    /// # Errors
    /// There was no event.
    pub fn release(&mut self, txn: u64, tree: u32) -> Result<u64, Refusal> {
        // SAFETY: a handle that nobody else has.
        count(unsafe { lt_release(self.raw, txn, tree) })
    }

    /// Joins neighbouring ranges of each owner in the tree, and tells how many ranges are left.
    ///
    /// # Errors
    /// There was no event.
    pub fn escalate(&mut self, txn: u64, tree: u32) -> Result<u64, Refusal> {
        // SAFETY: a handle that nobody else has.
        count(unsafe { lt_escalate(self.raw, txn, tree) })
    }

    /// The rows in use.
    pub fn rows_in_use(&mut self) -> u64 {
        // SAFETY: a handle that nobody else has.
        unsafe { lt_look(self.raw) }.count
    }
}

impl Drop for Handle {
    fn drop(&mut self) {
        // SAFETY: a handle that nobody else has, in its place as long as `_places` is there, and that is not used again.
        unsafe { lt_close(self.raw) };
    }
}
