//! Two copies of a channel, in memory that outlives the power, byte for byte as in `examples/slots.h`. They are written
//! by turns, so that one is whole while the other is written. The live state is not what is kept: a power failure
//! inside a call leaves it torn, and a torn state can pass a continuation's check.

use pilingrue::{COUNTS, MOST_ROOM, NUMBERS, State, Trace, VERSION};

pub const SLOTS: usize = 2;
pub const CHANNEL_BYTES: usize = 8 * (3 + COUNTS + NUMBERS + MOST_ROOM);
pub const SLOT_BYTES: usize = CHANNEL_BYTES + 8;

/// What a station has of a trace.
#[derive(Clone)]
pub struct Channel {
    /// Of the last copy; the larger is the newer.
    pub turn: u64,
    /// Of the interface then: under another the same numbers may mean something else.
    pub version: u64,
    /// Its checksum, to be written before each start: the state does not know its recipe.
    pub recipe: u64,
    pub state: State,
    pub buffer: Vec<f64>,
}

/// Each is a channel's bytes and the checksum of them.
pub struct Slots {
    pub memory: [Vec<u8>; SLOTS],
}

#[derive(Clone, Copy, PartialEq)]
pub enum Restored {
    Last,
    NoWholeCopy,
    AnotherVersion,
    AnotherRecipe,
}

/// FNV-1a. Any single changed byte is seen: each is mixed in by an exclusive or and a product with an odd number, and
/// both can be undone. A slot of zeros is not whole, since the checksum of zeros is odd.
pub fn checksum(bytes: &[u8]) -> u64 {
    let mixed = |sum: u64, byte: &u8| (sum ^ u64::from(*byte)).wrapping_mul(0x100000001B3);
    bytes.iter().fold(0xCBF29CE484222325, mixed)
}

/// The channel in a slot that is whole.
fn whole(slot: &[u8]) -> Option<Channel> {
    let (copy, sum) = slot.split_last_chunk()?;
    (u64::from_le_bytes(*sum) == checksum(copy)).then(|| Channel::of(copy))
}

impl Channel {
    pub fn blank() -> Channel {
        Channel::of(&[0; CHANNEL_BYTES])
    }

    pub fn of(bytes: &[u8]) -> Channel {
        let mut words = bytes.as_chunks().0.iter().map(|word| u64::from_le_bytes(*word));
        let mut next = || words.next().unwrap_or(0);
        let (turn, version, recipe) = (next(), next(), next());
        let counts = std::array::from_fn(|_| next());
        let numbers = std::array::from_fn(|_| f64::from_bits(next()));
        let buffer = words.map(f64::from_bits).collect();
        Channel { turn, version, recipe, state: State { counts, numbers }, buffer }
    }

    pub fn bytes(&self) -> Vec<u8> {
        let counts = [self.turn, self.version, self.recipe].into_iter().chain(self.state.counts);
        let numbers = self.state.numbers.iter().chain(&self.buffer).map(|x| x.to_bits());
        counts.chain(numbers).flat_map(u64::to_le_bytes).collect()
    }

    /// For a call.
    pub fn trace<'a>(&'a mut self, recipe: &'a [u8]) -> Trace<'a> {
        Trace { recipe, buffer: &mut self.buffer, state: &mut self.state }
    }
}

impl Slots {
    pub fn new() -> Slots {
        Slots { memory: [(); SLOTS].map(|()| vec![0; SLOT_BYTES]) }
    }

    /// Where the copy of a turn stands.
    pub fn of_turn(&mut self, turn: u64) -> &mut [u8] {
        &mut self.memory[turn as usize % SLOTS]
    }

    /// After each accepted call has returned, never during one. Answers whether the trace may go on: with another
    /// recipe it is a stop. Here and below `recipe` is the checksum of the recipe that is in memory now.
    pub fn keep(&mut self, live: &mut Channel, recipe: u64) -> bool {
        if live.recipe != recipe {
            self.stop(live);
            return false;
        }
        live.turn += 1;
        live.version = VERSION;
        let copy = live.bytes();
        let (older, sum) = self.of_turn(live.turn).split_at_mut(CHANNEL_BYTES);
        older.copy_from_slice(&copy);
        sum.copy_from_slice(&checksum(&copy).to_le_bytes());
        true
    }

    /// Before each start, and before the next lens is in the holder: no trace before it comes back.
    pub fn forget(&mut self) {
        self.memory.iter_mut().for_each(|slot| slot.fill(0));
    }

    /// After a refused call: nothing is shown, and nothing comes back. A state of zeros fits no recipe, so only a start
    /// goes on from here.
    pub fn stop(&mut self, live: &mut Channel) {
        self.forget();
        *live = Channel::blank();
    }

    /// When the power is back: the newest copy that is whole, or a stop.
    pub fn restore(&mut self, live: &mut Channel, recipe: u64) -> Restored {
        let found = match self.memory.iter().filter_map(|slot| whole(slot)).max_by_key(|copy| copy.turn) {
            Some(newest) if newest.version != VERSION => Restored::AnotherVersion,
            Some(newest) if newest.recipe != recipe => Restored::AnotherRecipe,
            Some(newest) => {
                *live = newest;
                return Restored::Last;
            }
            None => Restored::NoWholeCopy,
        };
        self.stop(live);
        found
    }
}
