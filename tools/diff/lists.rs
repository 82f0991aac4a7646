//! Lists that a host lends.

use std::fmt::Debug;

/// A call that is lent a list of marks with room for so many: it answers as expected, fills the list from its start with what is due, and changes no other mark, nor those around the list.
pub fn list_filled<T: Copy + PartialEq + Debug, A: PartialEq + Debug>(mark: T, room: usize, expected: A, due: &[T], call: impl FnOnce(&mut [T]) -> A) -> Result<(), String> {
    let mut list = vec![mark; room + 2];
    let mut after = list.clone();
    after[1..][..due.len()].copy_from_slice(due);
    let got = call(&mut list[1..][..room]);
    if got != expected {
        Err(format!("room for {room}: {got:?} given, {expected:?} expected"))
    } else if list != after {
        Err(format!("room for {room}: the list is\n{list:?}\nand not\n{after:?}"))
    } else {
        Ok(())
    }
}

/// The input that was lent is as it was.
pub fn unchanged(lent: &[u8], input: &[u8]) -> Result<(), String> {
    if lent == input {
        Ok(())
    } else {
        Err("the input is changed".to_string())
    }
}
