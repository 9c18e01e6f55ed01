//! Standard output: workers hand in numbered pieces, which go out in their order.
use std::collections::BTreeMap;
use std::fs::File;
use std::io::Write;
use std::mem::ManuallyDrop;
use std::os::fd::FromRawFd;
use std::sync::{Condvar, Mutex};

pub struct Ordered {
    m: Mutex<Inner>,
    turn: Condvar,
    limit: usize,
    // Hold back all pieces until the last is made, as a program must that writes nothing after a fault.
    hold: bool,
}

struct Inner {
    next: usize,
    pending: BTreeMap<usize, Vec<u8>>,
    writing: bool,
    failed: bool,
    free: Vec<Vec<u8>>,
}

impl Ordered {
    pub fn new(limit: usize) -> Self {
        let inner = Inner { next: 0, pending: BTreeMap::new(), writing: false, failed: false, free: Vec::new() };
        Ordered { m: Mutex::new(inner), turn: Condvar::new(), limit, hold: std::env::var_os("PLAIN_HOLD").is_some() }
    }

    pub fn failed(&self) -> bool {
        self.m.lock().unwrap().failed
    }

    /// Hands in piece `i`; gives an empty buffer to go on with, or none after a failed write.
    pub fn put(&self, i: usize, buf: Vec<u8>) -> Option<Vec<u8>> {
        let mut g = self.m.lock().unwrap();
        g.pending.insert(i, buf);
        if self.hold {
            return Some(Vec::new());
        }
        if !g.writing {
            g.writing = true;
            while !g.failed {
                let n = g.next;
                let mut b = match g.pending.remove(&n) {
                    None => break,
                    Some(b) => b,
                };
                drop(g);
                let ok = stdout().write_all(&b).is_ok();
                b.clear();
                g = self.m.lock().unwrap();
                g.next += 1;
                g.failed |= !ok;
                g.free.push(b);
                self.turn.notify_all();
            }
            g.writing = false;
            self.turn.notify_all();
        }
        // A worker far ahead waits. The one that has the next piece never does.
        while g.pending.len() > self.limit && !g.failed && (g.writing || !g.pending.contains_key(&g.next)) {
            g = self.turn.wait(g).unwrap();
        }
        if g.failed {
            return None;
        }
        Some(g.free.pop().unwrap_or_default())
    }

    /// Writes what was held back.
    pub fn release(&self) {
        let mut g = self.m.lock().unwrap();
        while let Some((_, b)) = g.pending.pop_first() {
            if g.failed {
                break;
            }
            g.failed = stdout().write_all(&b).is_err();
        }
    }
}

/// Standard output without a buffer of its own.
pub fn stdout() -> ManuallyDrop<File> {
    // SAFETY: descriptor 1 is open for the whole run and never closed here.
    ManuallyDrop::new(unsafe { File::from_raw_fd(1) })
}

/// Asks for a larger pipe behind standard output; anything else stays as it is.
pub fn widen_pipe() {
    extern "C" {
        fn fcntl(fd: i32, cmd: i32, ...) -> i32;
    }
    const F_SETPIPE_SZ: i32 = 1031;
    // SAFETY: the call takes no pointer.
    unsafe { fcntl(1, F_SETPIPE_SZ, 1 << 20) };
}
