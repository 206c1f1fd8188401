//! The parameter block, in which a machine of version 2.1 stores what a code 20
//! says (PROTOCOL 4, "The parameter block").

use crate::entries::{Kept, Value};

/// Its bytes: the node number, the target's name and the host's.
pub const LENGTH: usize = 14;
/// The least memory of version 2.1.
pub const MEMORY_LEAST: usize = 64;

const BELOW_TOP: usize = 64;
const NODE_LENGTH: usize = 2;
const NAME_LENGTH: usize = 6;

/// Where the block begins in a memory of so many bytes: below the first even
/// address beyond it.
pub fn start(memory: usize) -> usize {
    memory + memory % 2 - BELOW_TOP
}

/// Lays what is kept over the block's bytes.
pub fn lay(kept: &Kept, block: &mut [u8]) {
    let (node, names) = block.split_at_mut(NODE_LENGTH);
    let (target, host) = names.split_at_mut(NAME_LENGTH);
    lay_value(&kept.target_address, 0, node);
    lay_name(&kept.target_name, target);
    lay_name(&kept.host_name, host);
}

/// Of a name that is absent or empty only the first two bytes are laid.
fn lay_name(name: &Value, place: &mut [u8]) {
    if name.length == 0 {
        place[..2].fill(0);
    } else {
        lay_value(name, b' ', place);
    }
}

/// A value, and behind it always the same byte.
fn lay_value(value: &Value, behind: u8, place: &mut [u8]) {
    let length = value.length.into();
    place[..length].copy_from_slice(&value.bytes[..length]);
    place[length..].fill(behind);
}
