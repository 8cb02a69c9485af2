//! One motion file's life in a controller: begun on a blank card, written and
//! edited, sealed, stored with its slip, and checked after a restart. The last
//! line printed is the verdict on the newest slip.

use armfile::{Refusal, State, Verdict, SLIP_BYTES};

const KEY: [u8; 16] = *b"from a key store";
const ARM: u32 = 7;

/// What every byte of an erased card reads.
const ERASED: u8 = 0xff;

fn main() -> Result<(), Refusal> {
    // 21 bytes of a card just erased, for a key that has sealed nothing on
    // this arm.
    let (mut state, products) = State::start(&KEY, ARM, 0, 21, ERASED)?;
    println!("the blank card took {products} products");
    write(&mut state)?;

    // A line more is sealed, and taken off again: the first slip then fits the
    // bytes once more, but it is an old one.
    let old = sealed(&mut state)?;
    state.append(b"PARK\n")?;
    sealed(&mut state)?;
    state.cut_tail(b"PARK\n")?;
    let slip = sealed(&mut state)?;
    println!("the first slip is {}", state.check(&old)?);

    // The state is stored before the slip leaves the controller: the number
    // that the slip carries must never be used again.
    let stored = *state.as_bytes();
    drop(state); // it is wiped here

    let state = State::from_bytes(stored);
    let (length, arm, last) = (state.length(), state.arm(), state.last());
    println!("arm {arm} holds {length} bytes, sealed under number {last}");

    // The same state comes of the file itself, read in one piece. Only the
    // newest slip will do, for both.
    let file = b"; motion file 3\nMOVE 11 20 30\nGRIP 4\n";
    let read = State::read(&KEY, ARM, last, file)?;
    let mut verdict = state.check(&slip)?;
    if verdict == Verdict::Current {
        verdict = read.check(&slip)?;
    }
    println!("{verdict}");
    Ok(())
}

/// Writes the file on the blank card.
fn write(state: &mut State) -> Result<(), Refusal> {
    // The first lines go over the card's bytes, and one more after them.
    state.change(0, &[ERASED; 21], b"MOVE 10 20 30\nGRIP 4\n")?;
    state.append(b"MOVE 0 0 0\n")?;

    // Bytes 5 and 6, until now "10", become "11"; sixteen bytes go in front;
    // the last line leaves.
    state.change(5, b"10", b"11")?;
    state.prepend(b"; motion file 3\n")?;
    let products = state.cut_tail(b"MOVE 0 0 0\n")?;
    println!("the cut took {products} products");

    // A call that can't be done says why, and the state is as it was.
    match state.prepend(b"; too short") {
        Err(refusal) => println!("{refusal}"),
        Ok(_) => unreachable!("eleven bytes are no whole block"),
    }
    Ok(())
}

/// The slip of a seal.
fn sealed(state: &mut State) -> Result<[u8; SLIP_BYTES], Refusal> {
    let mut slip = [0; SLIP_BYTES];
    state.seal(&mut slip)?;
    Ok(slip)
}
