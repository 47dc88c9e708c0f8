//! A call of `receive` names its own 32-byte target, while SyncState keeps one, private, made from a count of bits.
//! So the driver writes the target into the state before each receive. Where it stands is found once, by its bytes.
use crate::words::Bytes32;
use disentangle_node::HelloWorldPoW;
use disentangle_p2p::sync::SyncState;

/// A count whose target (16 zero bytes, 31, 15 times 255) looks like nothing else in a new state.
const MARK_BITS: u8 = 131;

pub struct TargetPlace(usize);

impl TargetPlace {
    pub fn find() -> Self {
        let state = SyncState::new(MARK_BITS);
        let mark = HelloWorldPoW::new(MARK_BITS).target;
        let start = &state as *const SyncState as *const u8;
        let last = std::mem::size_of::<SyncState>() - mark.len();
        // SAFETY: each place leaves 32 bytes inside `state`.
        let reads = |place: &usize| unsafe { start.add(*place).cast::<Bytes32>().read_volatile() } == mark;
        let places: Vec<usize> = (0..=last).filter(reads).collect();
        assert_eq!(places.len(), 1, "the target's place in SyncState is not clear");
        Self(places[0])
    }

    pub fn set(&self, state: &mut SyncState, target: Bytes32) {
        let start = state as *mut SyncState as *mut u8;
        // SAFETY: `find` saw the 32 bytes of `state.pow.target` at this place, and any 32 bytes are a target.
        unsafe { start.add(self.0).cast::<Bytes32>().write(target) }
    }
}
