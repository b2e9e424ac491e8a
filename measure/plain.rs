//! What a program without proofs does for the loads that `measure/loads` writes, of all kinds.
//!
//!     plain RECORDS SCRIPT    handles the script and prints what `hlr` prints for it
//!     plain RECORDS           reads and sorts the records, and no more
//!
//! It does for each line and each event what the register does. It checks both files before
//! anything runs. It has sixteen shards, and reads the whole tree of a frame. It keeps no journal,
//! as the register keeps none where nothing is listed.
//!
//! Built with `--cfg crate_hex` it reads the octets of a frame as the crate `hex` does.
//!
//! Left out are letters, listings, workers, records of version 2, and refused allocations. A fault
//! ends it as it ends `hlr`, with another line.

#[path = "plain/arguments.rs"]
mod arguments;
#[path = "plain/begins.rs"]
mod begins;
#[path = "plain/cancels.rs"]
mod cancels;
#[path = "plain/changes.rs"]
mod changes;
#[path = "plain/codes.rs"]
mod codes;
#[path = "plain/components.rs"]
mod components;
#[path = "plain/continues.rs"]
mod continues;
#[path = "plain/dialogues.rs"]
mod dialogues;
#[path = "plain/digits.rs"]
mod digits;
#[path = "plain/expiries.rs"]
mod expiries;
#[path = "plain/invocations.rs"]
mod invocations;
#[path = "plain/messages.rs"]
mod messages;
#[path = "plain/portions.rs"]
mod portions;
#[path = "plain/records.rs"]
mod records;
#[path = "plain/register.rs"]
mod register;
#[path = "plain/script.rs"]
mod script;
#[path = "plain/sent.rs"]
mod sent;
#[path = "plain/state.rs"]
mod state;
#[path = "plain/steps.rs"]
mod steps;
#[path = "plain/tags.rs"]
mod tags;
#[path = "plain/trees.rs"]
mod trees;
#[path = "plain/updates.rs"]
mod updates;
#[path = "plain/writer.rs"]
mod writer;

use records::read_records;
use register::Home;
use script::serve;
use std::error::Error;
use std::{env, fs, hint, mem};

const MAX_FILE: usize = 16_777_216;
const MAX_FRAME: usize = 4_096;
const MAX_ENTRIES: usize = 65_536;
const SHARDS: usize = 16;

type Outcome<T> = Result<T, Box<dyn Error>>;

fn read_file(path: &str) -> Outcome<String> {
    let text = fs::read_to_string(path)?;
    if text.len() > MAX_FILE {
        return Err(format!("{path} has more than {MAX_FILE} octets").into());
    }
    Ok(text)
}

fn main() -> Outcome<()> {
    let words: Vec<String> = env::args().skip(1).collect();
    let [records, script @ ..] = &words[..] else {
        return Err("plain RECORDS [SCRIPT]".into());
    };
    let subscribers = read_records(&read_file(records)?)?;
    if let [script] = script {
        let mut home = Home::new(subscribers);
        serve(&mut home, &read_file(script)?)?;
        // As in `hlr`, the shards are left to the process, which gives up all memory at once.
        mem::forget(hint::black_box(home));
    }
    Ok(())
}
