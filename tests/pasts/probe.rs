//! The exported calls of the crate `test_probe`, and its coding of events.

pub type Event = Vec<u8>;

#[link(name = "test_probe", kind = "static")]
extern "C" {
    #[allow(dead_code)]
    fn probe_past(
        text: *const u8,
        text_len: usize,
        events: *const u8,
        events_len: usize,
        out: *mut u8,
        out_len: usize,
    ) -> u32;
    #[allow(dead_code)]
    fn probe_commit(
        texts: *const u8,
        texts_len: usize,
        events: *const u8,
        events_len: usize,
        rounds: u32,
    ) -> u64;
}

/// The roles that the crate declares, by id: their names, and each one's parent.
pub const NAMES: [&str; 8] = ["top", "a", "b", "c", "d", "e", "f", "g"];
pub const PARENTS: [u8; 8] = [0, 0, 1, 2, 0, 4, 4, 1];

/// Events as bytes: for each its number of roles, and their ids.
pub fn coded(events: &[Event]) -> Vec<u8> {
    let mut bytes = Vec::new();
    for event in events {
        bytes.push(event.len() as u8);
        bytes.extend(event);
    }
    bytes
}

/// The number, and `out` filled: out[k] tells whether the past matches after k events.
#[allow(dead_code)]
pub fn past(text: &[u8], events: &[u8], out: &mut [u8]) -> u32 {
    // The call takes any bytes; the pointers and lengths are those of slices.
    unsafe {
        probe_past(
            text.as_ptr(),
            text.len(),
            events.as_ptr(),
            events.len(),
            out.as_mut_ptr(),
            out.len(),
        )
    }
}

/// A number made from all rules' positions after the events, `rounds` times over.
#[allow(dead_code)]
pub fn commit(texts: &[u8], events: &[u8], rounds: u32) -> u64 {
    unsafe {
        probe_commit(
            texts.as_ptr(),
            texts.len(),
            events.as_ptr(),
            events.len(),
            rounds,
        )
    }
}
