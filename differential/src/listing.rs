//! How often a list of waiting peers was answered, by how many peers it has, and
//! how often its order differed from each of seven others.

use independent::Keeper;

use crate::limits::PEERS;

type Key = fn(&Keeper, usize) -> u64;

/// Orders other than that by tag, smallest first. Peers that share a key stand
/// in the order of their numbers.
const OTHERS: [(&str, Key); 7] = [
    ("by peer", |_, peer| peer as u64),
    ("by peer, greatest first", |_, peer| (PEERS - peer) as u64),
    ("by tag, greatest first", |keeper, peer| {
        u64::from(u32::MAX - keeper.tags[peer])
    }),
    ("by tick count", |keeper, peer| keeper.sent_at[peer]),
    ("by the lowest byte of the tag", |keeper, peer| {
        u64::from(keeper.tags[peer] as u8)
    }),
    ("by the two lowest bytes of the tag", |keeper, peer| {
        u64::from(keeper.tags[peer] as u16)
    }),
    ("by the digits of the tag, as text", |keeper, peer| {
        let digits = format!("{:<8}", keeper.tags[peer]);
        digits
            .bytes()
            .fold(0, |key, byte| key << 8 | u64::from(byte))
    }),
];

#[derive(Default)]
pub struct ListTally {
    lengths: [u64; PEERS],
    others: [u64; OTHERS.len()],
}

/// The waiting peers in the order of a key.
fn ordered(keeper: &Keeper, key: Key) -> Vec<usize> {
    let mut peers: Vec<usize> = (0..PEERS)
        .filter(|&peer| keeper.waiting >> peer & 1 == 1)
        .collect();
    peers.sort_by_key(|&peer| key(keeper, peer));
    peers
}

impl ListTally {
    /// Counts a list that was answered, of a started keeper.
    pub fn list(&mut self, keeper: &Keeper) {
        let peers = ordered(keeper, |keeper, peer| u64::from(keeper.tags[peer]));
        self.lengths[peers.len()] += 1;
        for ((_, key), count) in OTHERS.iter().zip(&mut self.others) {
            *count += u64::from(ordered(keeper, *key) != peers);
        }
    }

    /// What is counted in words, with its count.
    fn lists(&self) -> Vec<(String, u64)> {
        let lengths = self.lengths.iter().enumerate();
        let others = OTHERS.iter().zip(&self.others);
        lengths
            .map(|(length, &count)| (format!("of {length} peers"), count))
            .chain(others.map(|((name, _), &count)| (format!("that are not {name}"), count)))
            .collect()
    }

    pub fn print(&self) {
        println!("answered lists of waiting peers:");
        for (list, count) in self.lists() {
            println!("  {count:>8}  {list}");
        }
    }

    pub fn missing(&self, enough: u64) -> Vec<String> {
        self.lists()
            .iter()
            .filter(|(_, count)| *count < enough)
            .map(|(list, _)| format!("less than {enough} lists {list}"))
            .collect()
    }
}

#[cfg(test)]
mod tests {
    use independent::Keeper;

    use super::ListTally;

    fn counted(requests: &[(usize, u32, u64)]) -> Vec<u64> {
        let mut keeper = Keeper::fresh();
        for &(peer, tag, sent_at) in requests {
            keeper.waiting |= 1 << peer;
            keeper.tags[peer] = tag;
            keeper.sent_at[peer] = sent_at;
        }
        let mut tally = ListTally::default();
        tally.list(&keeper);
        assert_eq!(tally.lengths[requests.len()], 1);
        tally.others.to_vec()
    }

    #[test]
    fn only_lists_in_another_order_are_counted() {
        assert_eq!(counted(&[]), [0; 7]);
        assert_eq!(counted(&[(9, 300, 5)]), [0; 7]);
        // Peers and tick counts rise with the tags.
        assert_eq!(counted(&[(4, 1, 5), (9, 2, 6)]), [0, 1, 1, 0, 0, 0, 0]);
        // Peers against the tags; one tick count.
        assert_eq!(counted(&[(9, 1, 5), (4, 2, 5)]), [1, 0, 1, 1, 0, 0, 0]);
        // Tick counts against the tags.
        assert_eq!(counted(&[(4, 1, 6), (9, 2, 5)]), [0, 1, 1, 1, 0, 0, 0]);
        // Tags whose lowest bytes, or whose digits, are in another order.
        assert_eq!(counted(&[(4, 255, 5), (9, 256, 5)]), [0, 1, 1, 0, 1, 0, 0]);
        assert_eq!(counted(&[(4, 9, 5), (9, 10, 5)]), [0, 1, 1, 0, 0, 0, 1]);
        assert_eq!(
            counted(&[(4, 65_535, 5), (9, 65_536, 5)]),
            [0, 1, 1, 0, 1, 1, 0]
        );
    }
}
