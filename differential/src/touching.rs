//! How often an edge that is told of a keeper lay at the start or the end of a
//! window, or one nanosecond from it.

const LIMITS: [&str; 2] = ["start", "end"];
const EDGES: [&str; 2] = ["lower", "upper"];
const PLACES: [&str; 3] = ["one nanosecond before", "at", "one nanosecond after"];

/// The moments at which a window's start and end begin, and the edges that are
/// told of the keeper that is asked.
pub struct Moments {
    pub limits: [i64; LIMITS.len()],
    pub edges: [i64; EDGES.len()],
}

#[derive(Default)]
pub struct TouchTally {
    counts: [[[u64; PLACES.len()]; EDGES.len()]; LIMITS.len()],
}

impl TouchTally {
    /// Counts a window that was answered.
    pub fn window(&mut self, moments: &Moments) {
        for (limit, counts) in moments.limits.iter().zip(&mut self.counts) {
            for (edge, counts) in moments.edges.iter().zip(counts) {
                // From -1 through 1 these are the places; no other is counted.
                let place = usize::try_from(edge - limit + 1).ok();
                if let Some(count) = place.and_then(|place| counts.get_mut(place)) {
                    *count += 1;
                }
            }
        }
    }

    /// Each place in words, with its count.
    fn places(&self) -> Vec<(String, u64)> {
        let mut places = Vec::new();
        for (limit, counts) in LIMITS.iter().zip(&self.counts) {
            for (edge, counts) in EDGES.iter().zip(counts) {
                for (place, &count) in PLACES.iter().zip(counts) {
                    places.push((format!("the {edge} edge {place} the {limit}"), count));
                }
            }
        }
        places
    }

    pub fn print(&self) {
        println!("answered windows by the place of a told edge:");
        for (place, count) in self.places() {
            println!("  {count:>8}  {place}");
        }
    }

    pub fn missing(&self, enough: u64) -> Vec<String> {
        self.places()
            .iter()
            .filter(|(_, count)| *count < enough)
            .map(|(place, _)| format!("less than {enough} windows with {place}"))
            .collect()
    }
}

#[cfg(test)]
mod tests {
    use super::{Moments, TouchTally};

    #[test]
    fn only_edges_within_a_nanosecond_are_counted() {
        let mut tally = TouchTally::default();
        for edges in [[9, 10], [8, 12], [11, 99], [101, 102]] {
            let limits = [10, 100];
            tally.window(&Moments { limits, edges });
        }
        let counts: Vec<u64> = tally.places().iter().map(|(_, count)| *count).collect();
        assert_eq!(counts, [1, 0, 1, 0, 1, 0, 0, 0, 1, 1, 0, 0]);
    }
}
