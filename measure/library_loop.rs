//! What measure/library.c times in Rattle beside the same in C. `gate/unproved --library OUT --with measure/library_loop.rs` puts it into the crate
//! `kunchrol` of a copy of the sources, from which that archive is built.

use crate::code::{CLOSED, MEMORY, OK};
use crate::handle::Handle;
use embed::{Register, frame_event};
use std::alloc::Global;

/// Gives frames, each of which stands after an octet that is its length, and adds the octets that they send to `sent`. What is sent is
/// looked at where it lies, and dropped.
#[unsafe(no_mangle)]
pub extern "C" fn measured_frames(
    alloc: Global,
    handle: &mut Handle,
    from: &[u8],
    frames: &[u8],
    sent: &mut u64,
) -> u32 {
    let Some(mut register) = handle.take(alloc) else {
        return CLOSED;
    };
    let code = give_all(alloc, &mut register, from, frames, sent);
    handle.put(register);
    code
}

fn give_all(
    alloc: Global,
    register: &mut Register,
    from: &[u8],
    frames: &[u8],
    sent: &mut u64,
) -> u32 {
    let mut left = frames;
    while let Some((len, rest)) = left.split_first() {
        let (octets, rest) = rest.split_at(usize::from(*len));
        let Ok(Some(event)) = frame_event(alloc, from, octets) else {
            return MEMORY;
        };
        if register.handle(event).is_err() {
            return MEMORY;
        }
        while let Some(out) = register.front() {
            *sent += out.octets.len() as u64;
            register.drop_front();
        }
        left = rest;
    }
    OK
}
