//! The library's calls on slices, with numbers as they come.
//!
//! Each function is one call of the C interface; what the numbers mean is in the rules paper and,
//! typed, in [`Broker`](crate::Broker). Every function is safe for every argument: a memory of any
//! length and content, any slot number, any input. This is the only module with `unsafe` in it.
//!
//! ```
//! use infod3::raw;
//!
//! let mut mem = vec![0; raw::memory_size(2, 1024, 1024, 256)];
//! assert_eq!(raw::set_up(&mut mem, 2, 1024, 1024, 256).answer, 0);
//! assert_eq!(raw::open(&mut mem, 0, 1).answer, 0);
//! let fed = raw::feed(&mut mem, 0, b"PING x\n");
//! assert_eq!((fed.answer, fed.count), (0, 7));
//! let mut out = [0; 64];
//! let taken = raw::take(&mut mem, 0, &mut out);
//! assert_eq!(taken.answer, 0);
//! assert_eq!(&out[..taken.count], b"PONG \"x\"\r\n");
//! assert_eq!(raw::close(&mut mem, 0).answer, 0);
//! ```

/// What a call gives back: its answer, and the bytes that a feed consumed, or that a take or a
/// write_command wrote.
#[repr(C)]
#[derive(Clone, Copy, Debug, PartialEq, Eq)]
pub struct Reply {
    /// The numbered answer of the rules paper.
    pub answer: u32,
    /// The bytes consumed by a feed or written by a take or a write_command; 0 beside the answers 1
    /// to 8.
    pub count: usize,
}

/// What reading a message gives back: its answer, the bytes of the input that the message took up,
/// and the bytes written.
#[repr(C)]
#[derive(Clone, Copy, Debug, PartialEq, Eq)]
pub struct Read {
    /// The numbered answer of the rules paper.
    pub answer: u32,
    /// The length of the message in the input; 0 beside the answers 1 to 8.
    pub consumed: usize,
    /// The bytes of ID and payload; 0 beside every answer but 0.
    pub written: usize,
}

/// What a match asked by itself gives.
#[derive(Clone, Copy, Debug, PartialEq, Eq)]
pub struct Match {
    /// 0, 101 for an invalid pattern, or 102 for a pattern or key that is too long.
    pub answer: u32,
    /// Whether the pattern matches the key.
    pub matched: bool,
    /// The steps of the match.
    pub steps: usize,
}

/// The match result as it crosses the border. The yes or no is a byte here, so that no byte the
/// library could leave in it is an invalid value.
#[repr(C)]
struct MatchResult {
    answer: u32,
    matched: u8,
    steps: usize,
}

extern "C" {
    fn infod3_set_up(mem: *mut u8, mem_len: usize, n: usize, s: usize, q: usize, r: usize)
        -> Reply;
    fn infod3_open(mem: *mut u8, mem_len: usize, slot: usize, form: usize) -> Reply;
    fn infod3_feed(
        mem: *mut u8,
        mem_len: usize,
        slot: usize,
        input: *const u8,
        input_len: usize,
    ) -> Reply;
    fn infod3_take(
        mem: *mut u8,
        mem_len: usize,
        slot: usize,
        out: *mut u8,
        out_len: usize,
    ) -> Reply;
    fn infod3_close(mem: *mut u8, mem_len: usize, slot: usize) -> Reply;
    fn infod3_memory_size(n: usize, s: usize, q: usize, r: usize) -> usize;
    fn infod3_match(
        pattern: *const u8,
        pattern_len: usize,
        key: *const u8,
        key_len: usize,
    ) -> MatchResult;
    fn infod3_write_command(
        form: usize,
        command: *const u8,
        command_len: usize,
        out: *mut u8,
        out_len: usize,
    ) -> Reply;
    fn infod3_read_message(
        form: usize,
        input: *const u8,
        input_len: usize,
        out: *mut u8,
        out_len: usize,
    ) -> Read;
}

/// Sets `mem` up for `n` slots, store room `s`, queue room `q` and record room `r`, whatever it
/// held. Answers 8 for a size out of range, then 5 for a memory that is too short.
pub fn set_up(mem: &mut [u8], n: usize, s: usize, q: usize, r: usize) -> Reply {
    // SAFETY: pointer and length are those of one slice that nothing else borrows during the call.
    // The library reads and writes only inside it and keeps no pointer.
    unsafe { infod3_set_up(mem.as_mut_ptr(), mem.len(), n, s, q, r) }
}

/// Opens a client in a free slot, in form 0 (packets), 1 (stream) or 2 (a stream whose client
/// every refusal shuts). Answers 7, 2, 8, 4.
pub fn open(mem: &mut [u8], slot: usize, form: usize) -> Reply {
    // SAFETY: as for `set_up`; slot and form may be any numbers.
    unsafe { infod3_open(mem.as_mut_ptr(), mem.len(), slot, form) }
}

/// Feeds a client its input, of which the first whole message is taken and no more. Answers 7, 2,
/// 3, 1, and 100 to 103 for a message that is refused.
pub fn feed(mem: &mut [u8], slot: usize, input: &[u8]) -> Reply {
    // SAFETY: as for `set_up`; the input is a slice of its own that is only read, and by Rust's
    // borrow rules it does not overlap the memory.
    unsafe {
        infod3_feed(
            mem.as_mut_ptr(),
            mem.len(),
            slot,
            input.as_ptr(),
            input.len(),
        )
    }
}

/// Takes the first message of a client's queue: it is written at the front of `out` and removed.
/// Answers 7, 2, 6, 5.
pub fn take(mem: &mut [u8], slot: usize, out: &mut [u8]) -> Reply {
    // SAFETY: as for `set_up`; `out` is a slice of its own that nothing else borrows.
    unsafe {
        infod3_take(
            mem.as_mut_ptr(),
            mem.len(),
            slot,
            out.as_mut_ptr(),
            out.len(),
        )
    }
}

/// Closes a client: its patterns, recording and queue are discarded and its slot is free. Answers
/// 7, 2.
pub fn close(mem: &mut [u8], slot: usize) -> Reply {
    // SAFETY: as for `set_up`.
    unsafe { infod3_close(mem.as_mut_ptr(), mem.len(), slot) }
}

/// The bytes that a memory of these sizes takes up, or 0 where a set up would answer 8.
pub fn memory_size(n: usize, s: usize, q: usize, r: usize) -> usize {
    // SAFETY: the call takes four numbers, any numbers, and touches no memory.
    unsafe { infod3_memory_size(n, s, q, r) }
}

/// Matches a pattern against a key. Answers 101 for an invalid pattern, then 102 for a pattern of
/// over 255 or a key of over 65,535 bytes.
pub fn matches(pattern: &[u8], key: &[u8]) -> Match {
    // SAFETY: pointers and lengths are those of two slices that are only read.
    let result = unsafe { infod3_match(pattern.as_ptr(), pattern.len(), key.as_ptr(), key.len()) };
    Match {
        answer: result.answer,
        matched: result.matched != 0,
        steps: result.steps,
    }
}

/// Writes a command, an ID and its payload, at the front of `out`, in form 0 (packets), 1 (framed
/// bytes) or 2 (text). Answers 8, 100, 101, 102, 5.
///
/// ```
/// use infod3::raw;
///
/// let mut out = [0; 64];
/// let written = raw::write_command(2, b"\x04k\0a\nb", &mut out);
/// assert_eq!(written.answer, 0);
/// assert_eq!(&out[..written.count], b"WRITE \"k\" \"a\\012b\"\n");
/// assert_eq!(raw::write_command(2, b"\x01**", &mut out).answer, 101);
/// assert_eq!(raw::write_command(1, b"\x05", &mut out[..2]).answer, 5);
/// ```
pub fn write_command(form: usize, command: &[u8], out: &mut [u8]) -> Reply {
    // SAFETY: pointers and lengths are those of two slices, of which the first is only read and
    // nothing else borrows the second; by Rust's borrow rules they do not overlap. The library
    // reads and writes only inside them and keeps no pointer. The form may be any number.
    unsafe {
        infod3_write_command(
            form,
            command.as_ptr(),
            command.len(),
            out.as_mut_ptr(),
            out.len(),
        )
    }
}

/// Reads the first message of `input` in form 0 (packets), 1 (framed bytes) or 2 (text): its ID and
/// payload are written at the front of `out`. Answers 8, 1, 100, 101, 102, 5.
///
/// ```
/// use infod3::raw;
///
/// let mut out = [0; 64];
/// let read = raw::read_message(2, b"INFO \"k\" \"\\134\"\r\nPONG", &mut out);
/// assert_eq!((read.answer, read.consumed), (0, 17));
/// assert_eq!(&out[..read.written], b"\x81k\0\\");
/// assert_eq!(raw::read_message(1, b"\x82\0\x01", &mut out).answer, 1);
/// ```
pub fn read_message(form: usize, input: &[u8], out: &mut [u8]) -> Read {
    // SAFETY: as for `write_command`.
    unsafe {
        infod3_read_message(
            form,
            input.as_ptr(),
            input.len(),
            out.as_mut_ptr(),
            out.len(),
        )
    }
}

#[cfg(test)]
mod tests {
    use super::*;

    #[test]
    fn empty_slices_are_answered() {
        assert_eq!(close(&mut [], 0).answer, 7);
        assert_eq!(feed(&mut [], 0, &[]).answer, 7);
        assert_eq!(take(&mut [], 0, &mut []).answer, 7);
        assert_eq!(open(&mut [], usize::MAX, usize::MAX).answer, 7);
        assert_eq!(set_up(&mut [], 1, 256, 1024, 256).answer, 5);
        assert_eq!(set_up(&mut [], 0, 256, 1024, 256).answer, 8);
        assert_eq!(write_command(1, &[], &mut []).answer, 100);
        assert_eq!(write_command(0, b"\x05", &mut []).answer, 5);
        assert_eq!(write_command(usize::MAX, &[], &mut []).answer, 8);
        assert_eq!(read_message(0, &[], &mut []).answer, 100);
        assert_eq!(read_message(1, &[], &mut []).answer, 1);
        assert_eq!(read_message(usize::MAX, &[], &mut []).answer, 8);
    }

    #[test]
    fn examples_of_matching() {
        let given = |matched, steps| Match {
            answer: 0,
            matched,
            steps,
        };
        let table: [(&str, &str, bool, usize); 12] = [
            ("iface.*.mtu", "iface.eth0.mtu", true, 14),
            ("iface.*.mtu", "iface.bridge0.port1.mtu", false, 15),
            ("iface.*", "iface.bridge0.port1.mtu", true, 7),
            ("iface.*", "iface.", true, 7),
            ("(a|ab)c", "abc", false, 2),
            ("(ab|a)c", "ac", true, 4),
            ("", "", true, 0),
            ("", "a", false, 0),
            ("*?", "xy", false, 1),
            ("*.b", "a.x.b", false, 3),
            ("*", "", true, 1),
            ("((((a))))", "a", true, 1),
        ];
        for (pattern, key, matched, steps) in table {
            let found = matches(pattern.as_bytes(), key.as_bytes());
            assert_eq!(found, given(matched, steps), "{pattern} on {key}");
        }
    }
}
