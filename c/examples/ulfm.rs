//! A safe wrapper over `ulfm.h`: ranks and the outside are values that are neither copied nor shared, and close themselves.
//!
//! So the borrow checker keeps the header's rules 1 to 3 and 6: a handle begins as null and is written by the library alone, a call has
//! its handle for itself, arrays have the length that is passed.
#![allow(dead_code)]
use std::ffi::{c_char, c_int, c_void, CStr};
use std::{fmt, ptr, thread};

#[repr(C)]
struct Handle(*mut c_void);

#[repr(C)]
#[derive(Default)]
struct Reply {
    flag: u64,
    kind: u32,
    failed: u16,
    comm: u16,
    context: u16,
    size: u16,
    raised: bool,
}

#[link(name = "ulfm", kind = "static")]
extern "C" {
    fn ulfm_open(ranks: u16, comms: u16, rounds: u16, outside: *mut Handle, handles: *mut Handle, count: usize) -> c_int;
    fn ulfm_close(handle: *mut Handle) -> c_int;
    fn ulfm_fail(handle: *mut Handle, rank: u16, first: *mut bool) -> c_int;
    fn ulfm_iagree(rank: *mut Handle, comm: u16, flag: u64) -> c_int;
    fn ulfm_ishrink(rank: *mut Handle, comm: u16) -> c_int;
    fn ulfm_ibarrier(rank: *mut Handle, comm: u16) -> c_int;
    fn ulfm_poll(rank: *mut Handle, comm: u16, reply: *mut Reply) -> c_int;
    fn ulfm_revoke(rank: *mut Handle, comm: u16, first: *mut bool) -> c_int;
    fn ulfm_get_failed(rank: *mut Handle, comm: u16, ranks: *mut u16, room: usize, count: *mut usize) -> c_int;
    fn ulfm_missing(rank: *mut Handle, comm: u16, ranks: *mut u16, room: usize, count: *mut usize) -> c_int;
    fn ulfm_ack_failed(rank: *mut Handle, comm: u16, count: u16, acknowledged: *mut u16) -> c_int;
    fn ulfm_free(rank: *mut Handle, comm: u16) -> c_int;
    fn ulfm_strerror(code: c_int) -> *const c_char;
}

// A handle may go from thread to thread (its calls take it by `&mut`); it isn't `Sync`.
unsafe impl Send for Handle {}

impl Drop for Handle {
    fn drop(&mut self) {
        unsafe { ulfm_close(self) };
    }
}

/// A code other than 0.
#[derive(Clone, Copy, PartialEq, Eq, Debug)]
pub struct Code(pub c_int);

impl fmt::Display for Code {
    fn fmt(&self, to: &mut fmt::Formatter) -> fmt::Result {
        to.write_str(&unsafe { CStr::from_ptr(ulfm_strerror(self.0)) }.to_string_lossy())
    }
}

fn checked(code: c_int) -> Result<(), Code> {
    if code == 0 { Ok(()) } else { Err(Code(code)) }
}

/// What an agree decided, alike for all: the flags under AND, the size of the failed group, whether the error is raised.
#[derive(PartialEq, Debug)]
pub struct Agreed {
    pub flag: u64,
    pub failed: u16,
    pub raised: bool,
}

/// Who declares ranks failed.
pub struct Outside(Handle);

/// A rank. Its calls wait where their names in MPI do.
pub struct Rank(Handle);

/// Opens a world: its outside, and its ranks in order.
pub fn open(ranks: u16, comms: u16, rounds: u16) -> Result<(Outside, Vec<Rank>), Code> {
    let mut outside = Handle(ptr::null_mut());
    let mut handles: Vec<Handle> = (0..ranks).map(|_| Handle(ptr::null_mut())).collect();
    checked(unsafe { ulfm_open(ranks, comms, rounds, &mut outside, handles.as_mut_ptr(), handles.len()) })?;
    Ok((Outside(outside), handles.into_iter().map(Rank).collect()))
}

impl Outside {
    /// Declares a rank failed, for good; whether this call did.
    pub fn fail(&mut self, rank: u16) -> Result<bool, Code> {
        let mut first = false;
        checked(unsafe { ulfm_fail(&mut self.0, rank, &mut first) })?;
        Ok(first)
    }
}

impl Rank {
    fn wait(&mut self, comm: u16) -> Result<Reply, Code> {
        loop {
            let mut reply = Reply::default();
            checked(unsafe { ulfm_poll(&mut self.0, comm, &mut reply) })?;
            if reply.kind != 0 {
                return Ok(reply);
            }
            thread::yield_now();
        }
    }

    pub fn agree(&mut self, comm: u16, flag: u64) -> Result<Agreed, Code> {
        checked(unsafe { ulfm_iagree(&mut self.0, comm, flag) })?;
        let reply = self.wait(comm)?;
        Ok(Agreed { flag: reply.flag, failed: reply.failed, raised: reply.raised })
    }

    /// The new communicator, and how many members it has.
    pub fn shrink(&mut self, comm: u16) -> Result<(u16, u16), Code> {
        checked(unsafe { ulfm_ishrink(&mut self.0, comm) })?;
        let reply = self.wait(comm)?;
        Ok((reply.comm, reply.size))
    }

    pub fn barrier(&mut self, comm: u16) -> Result<(), Code> {
        checked(unsafe { ulfm_ibarrier(&mut self.0, comm) })?;
        self.wait(comm).map(|_| ())
    }

    pub fn revoke(&mut self, comm: u16) -> Result<bool, Code> {
        let mut first = false;
        checked(unsafe { ulfm_revoke(&mut self.0, comm, &mut first) })?;
        Ok(first)
    }

    pub fn failed(&mut self, comm: u16) -> Result<Vec<u16>, Code> {
        let (mut ranks, mut count) = (vec![0; 1024], 0);
        checked(unsafe { ulfm_get_failed(&mut self.0, comm, ranks.as_mut_ptr(), ranks.len(), &mut count) })?;
        ranks.truncate(count);
        Ok(ranks)
    }

    /// Who is missing in the open round.
    pub fn missing(&mut self, comm: u16) -> Result<Vec<u16>, Code> {
        let (mut ranks, mut count) = (vec![0; 1024], 0);
        checked(unsafe { ulfm_missing(&mut self.0, comm, ranks.as_mut_ptr(), ranks.len(), &mut count) })?;
        ranks.truncate(count);
        Ok(ranks)
    }

    /// How many failures are acknowledged now.
    pub fn acknowledge(&mut self, comm: u16, count: u16) -> Result<u16, Code> {
        let mut acknowledged = 0;
        checked(unsafe { ulfm_ack_failed(&mut self.0, comm, count, &mut acknowledged) })?;
        Ok(acknowledged)
    }

    pub fn free(&mut self, comm: u16) -> Result<(), Code> {
        checked(unsafe { ulfm_free(&mut self.0, comm) })
    }
}
