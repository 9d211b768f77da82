//! Replies of peers that have flight times: what they have to be answered, by a
//! third statement beside both sides; how often their shifted bracket, their width
//! or an adopted edge lay at a limit or one nanosecond from it; and how often each
//! of some mistakes would have shown in the answer.

use crate::limits::{LAST_FLIGHT, LAST_MOMENT};

/// Two edges, which need not be in order.
pub type Pair = [i64; 2];

#[derive(Clone, Copy, PartialEq, Eq, Debug)]
pub struct Times {
    pub out: i64,
    pub back: i64,
}

/// A reply to a request that waits, and all that its answer depends on.
#[derive(Clone, Copy)]
pub struct Reply {
    pub rule: &'static str,
    pub longest: i64,
    pub wait: i64,
    /// The keeper's edges.
    pub edges: Pair,
    pub trailing: i64,
    pub leading: i64,
    /// The flight times of the peer.
    pub times: Times,
    /// Those of another peer, which do not matter.
    pub others: Times,
}

#[derive(Clone, Copy, PartialEq, Eq, Debug)]
pub enum Verdict {
    Taken(Pair),
    Kept,
    Conflict,
    /// With 5: an adopted edge would leave the range.
    Refused,
}

impl Reply {
    /// The bracket with these flight times.
    fn bracket(&self, times: Times) -> Pair {
        let begin = self.trailing - self.longest + times.back;
        let end = self.leading + self.wait * self.longest - times.out;
        [begin, end]
    }

    /// The reply's edges moved outward, which mm compares and adopts.
    fn outward(&self) -> Pair {
        let moved = (self.wait + 1) * self.longest;
        [self.trailing - moved, self.leading + moved]
    }

    fn shares_a_moment(&self, [begin, end]: Pair) -> bool {
        let [lower, upper] = self.edges;
        lower.max(begin) <= upper.min(end)
    }

    /// What a reply with this bracket is answered if mm compares the width of
    /// `compared` and adopts `adopted`.
    fn judged(&self, bracket: Pair, compared: Pair, adopted: Pair) -> Verdict {
        let [lower, upper] = self.edges;
        let [begin, end] = bracket;
        if !self.shares_a_moment(bracket) {
            return Verdict::Conflict;
        }
        if self.rule == "im" {
            return Verdict::Taken([lower.max(begin), upper.min(end)]);
        }
        if width(compared) > width(self.edges) {
            return Verdict::Kept;
        }
        if adopted[0] < -LAST_MOMENT || adopted[1] > LAST_MOMENT {
            return Verdict::Refused;
        }
        Verdict::Taken(adopted)
    }

    fn judged_with(&self, times: Times) -> Verdict {
        let outward = self.outward();
        self.judged(self.bracket(times), outward, outward)
    }

    pub fn verdict(&self) -> Verdict {
        self.judged_with(self.times)
    }

    /// The keeper's edges after it.
    pub fn edges_after(&self) -> Pair {
        match self.verdict() {
            Verdict::Taken(edges) => edges,
            Verdict::Kept | Verdict::Conflict | Verdict::Refused => self.edges,
        }
    }

    /// The number and the line that it is answered with.
    pub fn answer(&self, peer: usize) -> (u8, String) {
        let [lower, upper] = self.edges_after();
        let word = match self.verdict() {
            Verdict::Taken(_) => "taken",
            Verdict::Kept => "kept",
            Verdict::Conflict => "conflict",
            Verdict::Refused => return (5, "(no 5)\n".into()),
        };
        (0, format!("({word} {peer} ({lower} {upper}))\n"))
    }
}

fn width([first, second]: Pair) -> i64 {
    second - first
}

/// Edges with the later begin and the earlier end that flight times give.
fn narrowed([first, second]: Pair, times: Times) -> Pair {
    [first + times.back, second - times.out]
}

type Mistake = fn(&Reply) -> Verdict;

/// What a side would answer that made a mistake.
const MISTAKES: [(&str, Mistake); 9] = [
    ("OUT and BACK were swapped", |reply| {
        let Times { out, back } = reply.times;
        reply.judged_with(Times {
            out: back,
            back: out,
        })
    }),
    ("BACK were subtracted", |reply| {
        let back = -reply.times.back;
        reply.judged_with(Times {
            back,
            ..reply.times
        })
    }),
    ("OUT were added", |reply| {
        let out = -reply.times.out;
        reply.judged_with(Times { out, ..reply.times })
    }),
    ("BACK were ignored", |reply| {
        reply.judged_with(Times {
            back: 0,
            ..reply.times
        })
    }),
    ("OUT were ignored", |reply| {
        reply.judged_with(Times {
            out: 0,
            ..reply.times
        })
    }),
    ("both times were ignored", |reply| {
        reply.judged_with(Times { out: 0, back: 0 })
    }),
    ("the times were another peer's", |reply| {
        reply.judged_with(reply.others)
    }),
    ("an empty bracket were put in order", |reply| {
        let [begin, end] = reply.bracket(reply.times);
        let ordered = [begin.min(end), begin.max(end)];
        reply.judged(ordered, reply.outward(), reply.outward())
    }),
    ("mm compared and adopted with the times", |reply| {
        let outward = narrowed(reply.outward(), reply.times);
        reply.judged(reply.bracket(reply.times), outward, outward)
    }),
];

/// What is compared of a reply and a keeper.
#[derive(Clone, Copy)]
enum Place {
    Begin,
    End,
    Length,
    Width,
    First,
    Last,
}

impl Place {
    const ALL: [Place; 6] = [
        Place::Begin,
        Place::End,
        Place::Length,
        Place::Width,
        Place::First,
        Place::Last,
    ];

    const fn names(self) -> (&'static str, &'static str) {
        match self {
            Place::Begin => ("the bracket's begin", "the upper edge"),
            Place::End => ("the bracket's end", "the lower edge"),
            Place::Length => ("the bracket's end", "its begin"),
            Place::Width => ("the width moved outward", "that of the edges"),
            Place::First => ("the adopted lower edge", "the first moment"),
            Place::Last => ("the adopted upper edge", "the last moment"),
        }
    }

    /// A width is compared, and edges are adopted, under mm alone.
    const fn is_of_mm_alone(self) -> bool {
        matches!(self, Place::Width | Place::First | Place::Last)
    }

    /// By how many nanoseconds the one is above the other, if it is this that
    /// decides.
    fn above(self, reply: &Reply) -> Option<i64> {
        let [lower, upper] = reply.edges;
        let bracket @ [begin, end] = reply.bracket(reply.times);
        let outward = reply.outward();
        let wider = width(outward) - width(reply.edges);
        let is_within = |moment| lower <= moment && moment <= upper;
        let adopts = reply.shares_a_moment(bracket) && wider <= 0;
        let (decides, above) = match self {
            Place::Begin => (begin <= end, begin - upper),
            Place::End => (begin <= end, end - lower),
            Place::Length => (is_within(begin) && is_within(end), end - begin),
            Place::Width => (reply.shares_a_moment(bracket), wider),
            Place::First => (adopts, outward[0] + LAST_MOMENT),
            Place::Last => (adopts, outward[1] - LAST_MOMENT),
        };
        decides.then_some(above)
    }
}

type IsOfKind = fn(&Reply, i64) -> bool;

/// Kinds of flight times.
const KINDS: [(&str, IsOfKind); 6] = [
    ("0", |_, time| time == 0),
    ("1 through 1000", |_, time| (1..=1000).contains(&time)),
    (
        "a longest tick, or one nanosecond from it",
        |reply, time| (time - reply.longest).abs() <= 1,
    ),
    (
        "w longest ticks, w above 1, or one nanosecond from them",
        |reply, time| reply.wait > 1 && (time - reply.wait * reply.longest).abs() <= 1,
    ),
    ("more than w + 1 longest ticks", |reply, time| {
        time > (reply.wait + 1) * reply.longest
    }),
    ("1000000000", |_, time| time == i64::from(LAST_FLIGHT)),
];

const RULES: [&str; 2] = ["im", "mm"];
const OFFSETS: [&str; 3] = ["one nanosecond below", "at", "one nanosecond above"];
const WORDS: [&str; 4] = ["taken", "kept", "conflict", "refused with 5"];
const NAMES: [&str; 2] = ["an out time", "a back time"];

/// Replies of a peer of which a flight time is not 0.
#[derive(Default)]
pub struct ShiftTally {
    words: [[u64; WORDS.len()]; RULES.len()],
    places: [[[u64; OFFSETS.len()]; Place::ALL.len()]; RULES.len()],
    kinds: [[u64; KINDS.len()]; NAMES.len()],
    mistakes: [u64; MISTAKES.len()],
}

impl ShiftTally {
    /// Counts a reply that was answered as its verdict says.
    pub fn reply(&mut self, reply: &Reply) {
        let Some(rule) = RULES.iter().position(|name| *name == reply.rule) else {
            return;
        };
        let Times { out, back } = reply.times;
        if out == 0 && back == 0 {
            return;
        }
        let verdict = reply.verdict();
        self.words[rule][word(verdict)] += 1;
        for (place, counts) in Place::ALL.iter().zip(&mut self.places[rule]) {
            // From -1 through 1 these are the offsets; no other is counted.
            let offset = place
                .above(reply)
                .and_then(|by| usize::try_from(by + 1).ok());
            if let Some(count) = offset.and_then(|offset| counts.get_mut(offset)) {
                *count += 1;
            }
        }
        for (time, counts) in [out, back].into_iter().zip(&mut self.kinds) {
            for ((_, is_of_kind), count) in KINDS.iter().zip(counts) {
                *count += u64::from(is_of_kind(reply, time));
            }
        }
        for ((_, mistake), count) in MISTAKES.iter().zip(&mut self.mistakes) {
            *count += u64::from(mistake(reply) != verdict);
        }
    }

    /// What is counted in words, with its count.
    fn counts(&self) -> Vec<(String, u64)> {
        let mut all = Vec::new();
        for (rule, counts) in RULES.iter().zip(&self.words) {
            for (word, &count) in WORDS.iter().zip(counts) {
                // Under im nothing is kept, and no edge leaves the range.
                if *rule == "mm" || ["taken", "conflict"].contains(word) {
                    all.push((format!("{rule}, {word}"), count));
                }
            }
        }
        for (rule, counts) in RULES.iter().zip(&self.places) {
            for (place, counts) in Place::ALL.iter().zip(counts) {
                if *rule != "mm" && place.is_of_mm_alone() {
                    continue;
                }
                let (name, other) = place.names();
                for (offset, &count) in OFFSETS.iter().zip(counts) {
                    all.push((format!("{rule}, {name} {offset} {other}"), count));
                }
            }
        }
        for (name, counts) in NAMES.iter().zip(&self.kinds) {
            for ((kind, _), &count) in KINDS.iter().zip(counts) {
                all.push((format!("{name} of {kind}"), count));
            }
        }
        for ((mistake, _), &count) in MISTAKES.iter().zip(&self.mistakes) {
            all.push((format!("answered in another way if {mistake}"), count));
        }
        all
    }

    pub fn print(&self) {
        println!("answered replies of peers with flight times:");
        for (words, count) in self.counts() {
            println!("  {count:>8}  {words}");
        }
    }

    pub fn missing(&self, enough: u64) -> Vec<String> {
        self.counts()
            .iter()
            .filter(|(_, count)| *count < enough)
            .map(|(words, _)| format!("less than {enough} replies with flight times: {words}"))
            .collect()
    }
}

/// The place of a verdict in `WORDS`.
fn word(verdict: Verdict) -> usize {
    match verdict {
        Verdict::Taken(_) => 0,
        Verdict::Kept => 1,
        Verdict::Conflict => 2,
        Verdict::Refused => 3,
    }
}

#[cfg(test)]
mod tests {
    use super::{Reply, ShiftTally, Times, Verdict, MISTAKES};
    use crate::limits::LAST_MOMENT;

    /// A reply of (9999000 10001000) after five ticks of at most 1000200.
    const REPLY: Reply = Reply {
        rule: "im",
        longest: 1_000_200,
        wait: 5,
        edges: [14_996_000, 15_004_000],
        trailing: 9_999_000,
        leading: 10_001_000,
        times: Times { out: 0, back: 0 },
        others: Times { out: 0, back: 0 },
    };

    /// A reply of 1000200 alone, without a wait. Its bracket is from BACK through
    /// 1000200 - OUT.
    fn alone(rule: &'static str, out: i64, back: i64) -> Reply {
        Reply {
            rule,
            wait: 0,
            edges: [-1000, 1000],
            trailing: 1_000_200,
            leading: 1_000_200,
            times: Times { out, back },
            ..REPLY
        }
    }

    #[test]
    fn brackets_are_shifted() {
        let times = Times {
            out: 1000,
            back: 2000,
        };
        let reply = Reply { times, ..REPLY };
        assert_eq!(REPLY.bracket(REPLY.times), [8_998_800, 15_002_000]);
        assert_eq!(reply.bracket(times), [9_000_800, 15_001_000]);
        let (number, line) = reply.answer(4);
        assert_eq!((number, &line[..]), (0, "(taken 4 (14996000 15001000))\n"));
    }

    #[test]
    fn an_empty_bracket_is_a_conflict() {
        for (rule, one_moment) in [("im", Verdict::Taken([0, 0])), ("mm", Verdict::Kept)] {
            assert_eq!(alone(rule, 1_000_200, 0).verdict(), one_moment);
            assert_eq!(alone(rule, 1_000_200, 1).verdict(), Verdict::Conflict);
        }
    }

    #[test]
    fn an_adoption_uses_no_times() {
        let mut reply = Reply {
            edges: [-2_000_000, 2_000_000],
            trailing: -500,
            leading: 500,
            ..alone("mm", 1000, 2000)
        };
        assert_eq!(reply.bracket(reply.times), [-998_700, -500]);
        assert_eq!(reply.answer(4).1, "(taken 4 (-1000700 1000700))\n");
        reply.edges = [-1_000_700, 1_000_699];
        assert_eq!(reply.answer(4).1, "(kept 4 (-1000700 1000699))\n");
        reply.edges = [-LAST_MOMENT, LAST_MOMENT];
        reply.trailing = 1_000_199 - LAST_MOMENT;
        assert_eq!(reply.answer(4), (5, "(no 5)\n".into()));
        reply.trailing += 1;
        assert_eq!(reply.edges_after(), [-LAST_MOMENT, 1_000_700]);
    }

    #[test]
    fn replies_without_times_are_not_counted() {
        let mut tally = ShiftTally::default();
        tally.reply(&REPLY);
        tally.reply(&alone("mm", 0, 0));
        assert!(tally.counts().iter().all(|(_, count)| *count == 0));
    }

    /// All that counts one reply, whose bracket is empty by one nanosecond.
    #[test]
    fn each_class_is_counted() {
        let mut tally = ShiftTally::default();
        tally.reply(&alone("mm", 1_000_200, 1));
        let counted: Vec<_> = tally
            .counts()
            .into_iter()
            .filter(|(_, count)| *count == 1)
            .map(|(words, _)| words)
            .collect();
        assert_eq!(
            counted,
            [
                "mm, conflict",
                "mm, the bracket's end one nanosecond below its begin",
                "an out time of a longest tick, or one nanosecond from it",
                "a back time of 1 through 1000",
                "answered in another way if BACK were subtracted",
                "answered in another way if OUT were added",
                "answered in another way if BACK were ignored",
                "answered in another way if OUT were ignored",
                "answered in another way if both times were ignored",
                "answered in another way if the times were another peer's",
                "answered in another way if an empty bracket were put in order",
            ]
        );
    }

    /// Each mistake shows in one of these.
    #[test]
    fn mistakes_show() {
        let replies = [
            alone("im", 999_900, 200),
            alone("im", 1_000_200, 1),
            Reply {
                edges: [-2_000_000, 2_000_000],
                ..alone("mm", 1000, 2000)
            },
        ];
        let counts = MISTAKES.map(|(_, mistake)| {
            let shows = |reply: &&Reply| mistake(reply) != reply.verdict();
            replies.iter().filter(shows).count()
        });
        assert!(counts.iter().all(|&count| count > 0), "{counts:?}");
        let counts = MISTAKES.map(|(_, mistake)| mistake(&REPLY) != REPLY.verdict());
        assert_eq!(counts, [false; MISTAKES.len()]);
    }
}
