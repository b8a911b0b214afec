//! Two threads of an engine, each with a handle of one table: a grant, a refusal with its holder, an escalation, a release, and asks side by
//! side.

use leddonchi::{Asked, Handle, Refusal, open};
use std::sync::mpsc::{Receiver, Sender, channel};
use std::thread;

const KEYS: u32 = 500;

/// Calls until the table is not busy.
fn insist<T>(mut call: impl FnMut() -> Result<T, Refusal>) -> Result<T, Refusal> {
    loop {
        match call() {
            Err(Refusal::Busy) => thread::yield_now(),
            done => return done,
        }
    }
}

fn ask_and_tell(handle: &mut Handle, txn: u64, left: &str, right: &str) -> Result<(), Refusal> {
    let asked = insist(|| handle.ask(txn, 0, left.as_bytes(), right.as_bytes()))?;
    println!("{txn} asks for {left} to {right}: {asked:?}");
    Ok(())
}

/// Asks for so many keys that no other asks for, and tells how many were granted.
fn ask_for_keys(handle: &mut Handle, txn: u64) -> Result<usize, Refusal> {
    let mut granted = 0;
    for i in 0..KEYS {
        let key = format!("{txn}-{i:03}");
        let asked = insist(|| handle.ask(txn, 0, key.as_bytes(), key.as_bytes()))?;
        granted += usize::from(asked == Asked::Granted);
    }
    Ok(granted)
}

fn first(mut handle: Handle, turn: Receiver<()>, other: Sender<()>) -> Result<(Handle, usize), Refusal> {
    ask_and_tell(&mut handle, 1, "apple", "cherry")?;
    let _ = other.send(());
    let _ = turn.recv();
    ask_and_tell(&mut handle, 1, "damson", "elder")?;
    println!("{} rows are in use", handle.rows_in_use());
    println!("1 escalates: {} range is left", insist(|| handle.escalate(1, 0))?);
    let _ = other.send(());
    let _ = turn.recv();
    println!("1 frees all: {} range", insist(|| handle.free(1, 0, b"", b"~", true))?);
    let _ = other.send(());
    let _ = turn.recv();
    let granted = ask_for_keys(&mut handle, 1)?;
    Ok((handle, granted))
}

fn second(mut handle: Handle, turn: Receiver<()>, other: Sender<()>) -> Result<(Handle, usize), Refusal> {
    let _ = turn.recv();
    ask_and_tell(&mut handle, 2, "banana", "date")?;
    let _ = other.send(());
    let _ = turn.recv();
    ask_and_tell(&mut handle, 2, "czar", "czar")?;
    let _ = other.send(());
    let _ = turn.recv();
    ask_and_tell(&mut handle, 2, "banana", "date")?;
    let _ = other.send(());
    let granted = ask_for_keys(&mut handle, 2)?;
    Ok((handle, granted))
}

fn main() -> Result<(), Refusal> {
    let mut handles = open(2, 1, 2000, 0)?;
    let (two, one) = (handles.pop().expect("two handles"), handles.pop().expect("two handles"));
    let (to_one, turn_of_one) = channel();
    let (to_two, turn_of_two) = channel();
    let one = thread::spawn(move || first(one, turn_of_one, to_two));
    let two = thread::spawn(move || second(two, turn_of_two, to_one));
    let (mut one, by_one) = one.join().expect("the first thread")?;
    let (_two, by_two) = two.join().expect("the second thread")?;
    println!("side by side: 1 was granted {by_one} keys, 2 was granted {by_two}");
    println!("{} rows are in use", one.rows_in_use());
    println!("1 asks in tree 7: {:?}", one.ask(1, 7, b"a", b"a"));
    Ok(())
}
