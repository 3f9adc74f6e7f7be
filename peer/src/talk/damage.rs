//! Commands damaged on the way.

use crate::rng::Rng;

/// One kind of damage.
#[derive(Clone, Copy)]
enum Harm {
    Bit,
    Byte,
    DropEnd,
    DropOne,
    Extend,
    OtherClass,
    Class,
    Instruction,
    P1,
    P2,
    Lc,
    Le,
    Stub,
    Oversize,
}

const HARMS: [(usize, Harm); 14] = [
    (20, Harm::Bit),
    (10, Harm::Byte),
    (10, Harm::DropEnd),
    (6, Harm::DropOne),
    (10, Harm::Extend),
    (5, Harm::OtherClass),
    (4, Harm::Class),
    (6, Harm::Instruction),
    (6, Harm::P1),
    (6, Harm::P2),
    (8, Harm::Lc),
    (6, Harm::Le),
    (2, Harm::Stub),
    (1, Harm::Oversize),
];

/// Damages a command; at least one byte of it stays.
pub(super) fn damage(rng: &mut Rng, command: &mut Vec<u8>) {
    let place = rng.below(command.len());
    let last = command.len() - 1;
    match rng.weighted(&HARMS) {
        Harm::Bit => command[place] ^= 1 << rng.below(8),
        Harm::Byte => command[place] = rng.byte(),
        Harm::DropEnd => command.truncate(command.len().saturating_sub(rng.between(1, 9)).max(1)),
        Harm::DropOne if command.len() > 1 => drop(command.remove(place)),
        Harm::DropOne => (),
        Harm::Extend => {
            let more = rng.between(1, 9);
            command.extend(rng.bytes(more));
        }
        Harm::OtherClass => command[0] ^= 0x90,
        Harm::Class => command[0] = rng.byte(),
        Harm::Instruction => set(command, 1, rng.byte()),
        Harm::P1 => set(command, 2, rng.byte()),
        Harm::P2 => set(command, 3, rng.byte()),
        Harm::Lc => {
            let lc = command.get(4).copied().unwrap_or_default();
            let wrong = rng.pick(&[lc.wrapping_add(1), lc.wrapping_sub(1), 0, 255]);
            set(command, 4, wrong);
        }
        Harm::Le => set(command, last, rng.byte()),
        Harm::Stub => command.truncate(rng.between(1, 4)),
        Harm::Oversize => {
            let size = rng.between(259, 270);
            let more = size.saturating_sub(command.len());
            command.extend(rng.bytes(more));
        }
    }
}

/// Sets a byte where there is one.
fn set(command: &mut [u8], place: usize, byte: u8) {
    command
        .iter_mut()
        .skip(place)
        .take(1)
        .for_each(|b| *b = byte);
}
