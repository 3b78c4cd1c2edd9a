//! LMDB from several threads: each reader in a read transaction of its own, which it renews.

use super::{check, get, mdb_txn_abort, mdb_txn_begin, write, Database, Env, Txn, READ_ONLY};
use std::marker::PhantomData;
use std::os::raw::{c_int, c_uint};
use std::ptr::null_mut;

extern "C" {
    fn mdb_txn_reset(txn: *mut Txn);
    fn mdb_txn_renew(txn: *mut Txn) -> c_int;
}

/// A database that threads share. Its own read transaction is not open.
pub struct Threads<'a> {
    env: *mut Env,
    dbi: c_uint,
    borrowed: PhantomData<&'a mut Database>,
}

// SAFETY: LMDB's environment may be used by all threads of a process; write transactions wait for each other inside it.
// The database is borrowed mutably for as long as this lives, so it stays open and reads nothing itself.
unsafe impl Sync for Threads<'_> {}

impl Database {
    /// The database, for threads.
    pub fn threads(&mut self) -> Threads<'_> {
        self.end_reads();
        Threads {
            env: self.env,
            dbi: self.dbi,
            borrowed: PhantomData,
        }
    }
}

impl Threads<'_> {
    /// Stores values under the keys from `first` on, in one write transaction; on a thread that has no reader.
    pub fn write<'a>(&self, first: usize, values: impl Iterator<Item = &'a [u8]>) {
        // SAFETY: the database is open while it is borrowed, and the writer's thread has no reader.
        unsafe { write(self.env, self.dbi, first, values) }
    }

    /// A reader on this thread, which may have one.
    pub fn reader(&self) -> Reader<'_> {
        let mut txn = null_mut();
        // SAFETY: `env` is open, and a thread that asks for a reader has no other transaction.
        check(unsafe { mdb_txn_begin(self.env, null_mut(), READ_ONLY, &mut txn) });
        // SAFETY: `txn` is open; reset, it keeps its place among the readers and no version.
        unsafe { mdb_txn_reset(txn) };
        let (dbi, threads) = (self.dbi, PhantomData);
        Reader { txn, dbi, threads }
    }
}

/// A reader. The pointer keeps it on its thread.
pub struct Reader<'a> {
    txn: *mut Txn,
    dbi: c_uint,
    threads: PhantomData<&'a ()>,
}

impl Reader<'_> {
    /// Hands on each key's value of the newest version, where it lies, in one transaction renewed for all of them.
    pub fn each(&mut self, keys: &[usize], mut look: impl FnMut(&[u8])) {
        // SAFETY: the transaction is reset, as `reader` and this leave it.
        check(unsafe { mdb_txn_renew(self.txn) });
        for &key in keys {
            // SAFETY: the transaction is open until all values have been looked at.
            look(unsafe { get(self.txn, self.dbi, key) });
        }
        // SAFETY: the transaction is open, and no value of it is borrowed any more.
        unsafe { mdb_txn_reset(self.txn) };
    }
}

impl Drop for Reader<'_> {
    fn drop(&mut self) {
        // SAFETY: the transaction is there, and not used after this.
        unsafe { mdb_txn_abort(self.txn) };
    }
}
