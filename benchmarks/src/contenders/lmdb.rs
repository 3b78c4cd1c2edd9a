//! LMDB's C interface, as much of it as is needed, and a safe database of numbered values over it.

mod readers;

pub use readers::Threads;
use std::ffi::{c_void, CStr, CString};
use std::mem::size_of;
use std::os::raw::{c_char, c_int, c_uint};
use std::os::unix::ffi::OsStrExt;
use std::path::Path;
use std::ptr::{null, null_mut};

const NO_SUBDIR: c_uint = 0x4000;
const NO_SYNC: c_uint = 0x10000;
const READ_ONLY: c_uint = 0x20000;
const WRITE_MAP: c_uint = 0x80000;
const INTEGER_KEY: c_uint = 0x08;
const CREATE: c_uint = 0x40000;

/// `MDB_val`: a key or a value.
#[repr(C)]
struct Value {
    size: usize,
    data: *mut c_void,
}

/// `MDB_env` and `MDB_txn`, only ever behind pointers.
#[repr(C)]
struct Env([u8; 0]);
#[repr(C)]
struct Txn([u8; 0]);

// a shared library: Debian's `liblmdb-dev` has it where the linker looks
#[link(name = "lmdb")]
extern "C" {
    fn mdb_strerror(error: c_int) -> *const c_char;
    fn mdb_version(major: *mut c_int, minor: *mut c_int, patch: *mut c_int) -> *const c_char;
    fn mdb_env_create(env: *mut *mut Env) -> c_int;
    fn mdb_env_set_mapsize(env: *mut Env, size: usize) -> c_int;
    fn mdb_env_open(env: *mut Env, path: *const c_char, flags: c_uint, mode: c_uint) -> c_int;
    fn mdb_env_close(env: *mut Env);
    fn mdb_txn_begin(env: *mut Env, parent: *mut Txn, flags: c_uint, txn: *mut *mut Txn) -> c_int;
    fn mdb_txn_commit(txn: *mut Txn) -> c_int;
    fn mdb_txn_abort(txn: *mut Txn);
    fn mdb_dbi_open(txn: *mut Txn, name: *const c_char, flags: c_uint, dbi: *mut c_uint) -> c_int;
    fn mdb_get(txn: *mut Txn, dbi: c_uint, key: *mut Value, data: *mut Value) -> c_int;
    fn mdb_put(
        txn: *mut Txn,
        dbi: c_uint,
        key: *mut Value,
        data: *mut Value,
        flags: c_uint,
    ) -> c_int;
}

/// LMDB's name and version.
pub fn version() -> String {
    // SAFETY: null pointers are allowed, and the answer is a string that lives as long as the program.
    let text = unsafe { CStr::from_ptr(mdb_version(null_mut(), null_mut(), null_mut())) };
    let text = text.to_string_lossy();
    // a date follows
    text.split(':').next().unwrap_or_default().to_string()
}

fn check(error: c_int) {
    if error != 0 {
        // SAFETY: LMDB answers any number with a string that lives until the next such call; it is read at once.
        let text = unsafe { CStr::from_ptr(mdb_strerror(error)) };
        panic!("LMDB: {}", text.to_string_lossy());
    }
}

/// What a commit does before it returns.
#[derive(Clone, Copy, PartialEq, Eq)]
pub enum Commit {
    /// It writes through the memory map, and nothing is synced to a disk. By system calls, without that map, updates take two to
    /// three times as long.
    Unsynced,
    /// It writes by system calls, and syncs.
    Synced,
    /// It writes through the memory map, and syncs.
    SyncedMap,
}

impl Commit {
    fn flags(self) -> c_uint {
        match self {
            Commit::Unsynced => NO_SYNC | WRITE_MAP,
            Commit::Synced => 0,
            Commit::SyncedMap => WRITE_MAP,
        }
    }
}

/// A database with numbers for keys. The pointers keep it on the thread that made it.
pub struct Database {
    env: *mut Env,
    dbi: c_uint,
    /// The read transaction that is open; null where none is.
    reader: *mut Txn,
}

impl Database {
    /// A new database in this file, which must not be there yet.
    pub fn create(file: &Path, map_size: usize, commit: Commit) -> Database {
        let path = CString::new(file.as_os_str().as_bytes()).expect("no zero byte in the path");
        let flags = NO_SUBDIR | commit.flags();
        let (mut env, mut txn, mut dbi) = (null_mut(), null_mut(), 0);
        // SAFETY: in the order that LMDB asks for: each call is given what the one before made, and `path` outlives
        // the call. A step that fails panics, and nothing of it is used.
        unsafe {
            check(mdb_env_create(&mut env));
            check(mdb_env_set_mapsize(env, map_size));
            check(mdb_env_open(env, path.as_ptr(), flags, 0o600));
            check(mdb_txn_begin(env, null_mut(), 0, &mut txn));
            check(mdb_dbi_open(txn, null(), INTEGER_KEY | CREATE, &mut dbi));
            check(mdb_txn_commit(txn));
        }
        Database {
            env,
            dbi,
            reader: null_mut(),
        }
    }

    /// Stores values under the keys from `first` on, in one write transaction.
    pub fn write<'a>(&mut self, first: usize, values: impl Iterator<Item = &'a [u8]>) {
        self.end_reads();
        // SAFETY: `env` is open, and no other transaction is open on this thread.
        unsafe { write(self.env, self.dbi, first, values) }
    }

    /// Opens the read transaction, where none is open.
    pub fn begin_reads(&mut self) {
        if self.reader.is_null() {
            // SAFETY: `env` is open, and no other transaction is open on this thread.
            check(unsafe { mdb_txn_begin(self.env, null_mut(), READ_ONLY, &mut self.reader) });
        }
    }

    /// Ends the read transaction, if one is open.
    pub fn end_reads(&mut self) {
        if !self.reader.is_null() {
            // SAFETY: the transaction is open. No value that it gave is still borrowed, since `self` is borrowed mutably.
            unsafe { mdb_txn_abort(self.reader) };
            self.reader = null_mut();
        }
    }

    /// The value under a key, where it lies in LMDB's map.
    pub fn get(&self, key: usize) -> &[u8] {
        assert!(!self.reader.is_null(), "no read transaction is open");
        // SAFETY: the read transaction is open, and to end it needs `self` mutably.
        unsafe { get(self.reader, self.dbi, key) }
    }
}

/// Stores values under the keys from `first` on, in one write transaction: in an open database, on a thread that has no
/// other transaction open.
unsafe fn write<'a>(
    env: *mut Env,
    dbi: c_uint,
    first: usize,
    values: impl Iterator<Item = &'a [u8]>,
) {
    let mut txn = null_mut();
    // SAFETY: the caller's promise is passed on.
    check(unsafe { mdb_txn_begin(env, null_mut(), 0, &mut txn) });
    for (mut key, bytes) in (first..).zip(values) {
        let mut key = key_value(&mut key);
        let mut value = Value {
            size: bytes.len(),
            data: bytes.as_ptr() as *mut c_void,
        };
        // SAFETY: `txn` is the write transaction above; LMDB only reads key and value, which outlive the call.
        check(unsafe { mdb_put(txn, dbi, &mut key, &mut value, 0) });
    }
    // SAFETY: `txn` is open, and not used after this.
    check(unsafe { mdb_txn_commit(txn) });
}

/// The value under a key in an open read transaction. It stays as it is until that ends, which must be after `'a`.
#[inline]
unsafe fn get<'a>(txn: *mut Txn, dbi: c_uint, mut key: usize) -> &'a [u8] {
    let mut key = key_value(&mut key);
    let mut value = Value {
        size: 0,
        data: null_mut(),
    };
    // SAFETY: the caller's promise is passed on; LMDB only reads the key.
    check(unsafe { mdb_get(txn, dbi, &mut key, &mut value) });
    // SAFETY: LMDB gave the value, and by the caller's promise it stays.
    unsafe { std::slice::from_raw_parts(value.data as *const u8, value.size) }
}

fn key_value(key: &mut usize) -> Value {
    Value {
        size: size_of::<usize>(),
        data: (key as *mut usize).cast(),
    }
}

impl Drop for Database {
    fn drop(&mut self) {
        self.end_reads();
        // SAFETY: no transaction is open any more, and nothing is used after this.
        unsafe { mdb_env_close(self.env) };
    }
}
