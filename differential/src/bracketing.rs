//! How often a reply's bracket began at the keeper's upper edge or ended at its
//! lower one, and how often a reply moved outward was as wide as the keeper's
//! edges, or one nanosecond from it.

/// What is compared of a reply and a keeper.
#[derive(Clone, Copy)]
pub enum Place {
    Begin,
    End,
    Width,
}

impl Place {
    pub const ALL: [Place; 3] = [Place::Begin, Place::End, Place::Width];

    const fn name(self) -> &'static str {
        match self {
            Place::Begin => "the bracket's begin",
            Place::End => "the bracket's end",
            Place::Width => "the width moved outward",
        }
    }

    const fn other(self) -> &'static str {
        match self {
            Place::Begin => "the upper edge",
            Place::End => "the lower edge",
            Place::Width => "that of the edges",
        }
    }
}

const RULES: [&str; 2] = ["im", "mm"];
const OFFSETS: [&str; 3] = ["one nanosecond below", "at", "one nanosecond above"];

#[derive(Default)]
pub struct BracketTally {
    counts: [[[u64; OFFSETS.len()]; Place::ALL.len()]; RULES.len()],
}

impl BracketTally {
    /// Counts a reply that was answered, `by` nanoseconds from its place.
    pub fn reply(&mut self, rule: &str, place: Place, by: i64) {
        let rule = RULES.iter().position(|name| *name == rule);
        let offset = usize::try_from(by + 1).ok();
        let (Some(rule), Some(offset)) = (rule, offset) else {
            return;
        };
        if let Some(count) = self.counts[rule][place as usize].get_mut(offset) {
            *count += 1;
        }
    }

    /// Each place in words, with its count. A width is compared under mm alone.
    fn places(&self) -> Vec<(String, u64)> {
        let mut places = Vec::new();
        for (rule, counts) in RULES.iter().zip(&self.counts) {
            for (place, counts) in Place::ALL.iter().zip(counts) {
                if matches!(place, Place::Width) && *rule != "mm" {
                    continue;
                }
                for (offset, &count) in OFFSETS.iter().zip(counts) {
                    let (name, other) = (place.name(), place.other());
                    places.push((format!("{rule}, {name} {offset} {other}"), count));
                }
            }
        }
        places
    }

    pub fn print(&self) {
        println!("answered replies by the place of their bracket or width:");
        for (place, count) in self.places() {
            println!("  {count:>8}  {place}");
        }
    }

    pub fn missing(&self, enough: u64) -> Vec<String> {
        self.places()
            .iter()
            .filter(|(_, count)| *count < enough)
            .map(|(place, _)| format!("less than {enough} replies with {place}"))
            .collect()
    }
}

#[cfg(test)]
mod tests {
    use super::{BracketTally, Place};

    #[test]
    fn only_replies_within_a_nanosecond_are_counted() {
        let mut tally = BracketTally::default();
        for by in [-2, -1, 0, 0, 2] {
            tally.reply("im", Place::End, by);
        }
        tally.reply("mm", Place::Width, 1);
        tally.reply("xx", Place::Begin, 0);
        let counts: Vec<u64> = tally.places().iter().map(|(_, count)| *count).collect();
        let mut expected = [0; 15];
        (expected[3], expected[4], expected[14]) = (1, 2, 1);
        assert_eq!(counts, expected);
    }
}
