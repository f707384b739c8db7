//! FNV-1a of 64 bits, kept so that only what follows the first change is hashed again.
use crate::areas::SLOT_BYTES;

const OFFSET_BASIS: u64 = 0xcbf2_9ce4_8422_2325;
const PRIME: u64 = 0x0000_0100_0000_01b3;

fn go_on(hash: u64, bytes: &[u8]) -> u64 {
    bytes.iter().fold(hash, |hash, byte| (hash ^ u64::from(*byte)).wrapping_mul(PRIME))
}

pub fn fnv1a(bytes: &[u8]) -> u64 {
    go_on(OFFSET_BASIS, bytes)
}

/// The bytes last hashed and the hash at the end of each stretch of them.
#[derive(Default)]
pub struct KeptHash {
    bytes: Vec<u8>,
    ends: Vec<u64>,
}

impl KeptHash {
    pub fn of(&mut self, bytes: &[u8]) -> u64 {
        let stretches = bytes.chunks(SLOT_BYTES).zip(self.bytes.chunks(SLOT_BYTES));
        let same = stretches.take_while(|(now, then)| now == then).count();
        let from = (same * SLOT_BYTES).min(bytes.len());
        self.ends.truncate(same);
        let mut hash = self.ends.last().copied().unwrap_or(OFFSET_BASIS);
        for stretch in bytes[from..].chunks(SLOT_BYTES) {
            hash = go_on(hash, stretch);
            self.ends.push(hash);
        }
        copy_changed(bytes, &mut self.bytes);
        hash
    }
}

/// Makes `copy` equal to `bytes`, writing only the stretches that differ.
pub fn copy_changed(bytes: &[u8], copy: &mut Vec<u8>) {
    copy.resize(bytes.len(), 0);
    for (now, then) in bytes.chunks(SLOT_BYTES).zip(copy.chunks_mut(SLOT_BYTES)) {
        if now != then {
            then.copy_from_slice(now);
        }
    }
}
