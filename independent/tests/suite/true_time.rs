//! Two boards that ask each other at any moment between their ticks, with known
//! flight times or without. Because their ticks keep to the claim and their
//! frames to the flight times, their edges must hold the true time.

use independent::Keeper;

use crate::caller::{after, ask};
use crate::random::Random;

/// A board, and the true moments of its last and of its next tick.
struct Board {
    keeper: Keeper,
    last: i64,
    next: i64,
}

impl Board {
    /// A board that starts now. Its edges hold the true time.
    fn started(number: usize, now: i64, random: &mut Random) -> Board {
        let rule = random.pick(&["im", "mm"]);
        let claim = random.pick(&[0, 200, 50_000]);
        let spread = random.pick(&[1, 1000, 20_000_000]);
        let lower = now - random.below(spread) as i64;
        let upper = now + random.below(spread) as i64;
        let start = format!("(start {number} {rule} {claim} ({lower} {upper}))");
        let mut board = Board {
            keeper: after(&[&start]),
            last: now,
            next: now,
        };
        board.begin_tick(random);
        board
    }

    /// Chooses the length of the tick that begins now.
    fn begin_tick(&mut self, random: &mut Random) {
        let claim = i64::from(self.keeper.claim);
        let any = random.below(2 * claim as u64 + 1) as i64 - claim;
        self.last = self.next;
        self.next += 1_000_000 + random.pick(&[-claim, claim, any]);
    }

    /// Counts the ticks that come until now.
    fn count_until(&mut self, now: i64, random: &mut Random) {
        while self.next <= now {
            ask(&mut self.keeper, "(pass 1)");
            self.begin_tick(random);
        }
    }

    /// The told edges, from the answer to a read.
    fn told(&mut self) -> [i64; 2] {
        let answer = ask(&mut self.keeper, "(read)");
        let words: Vec<&str> = answer.split(['(', ')', ' ']).collect();
        [words[3], words[4]].map(|word| word.parse().expect("an edge"))
    }

    fn check(&mut self, now: i64) {
        let [lower, upper] = self.told();
        assert!(lower <= now && now <= upper, "{:?} {now}", self.keeper);
        let Keeper { lower, upper, .. } = self.keeper;
        assert!(lower <= self.last && self.last <= upper);
        assert_eq!(self.keeper.conflicts, 0);
    }
}

/// Two boards, and the true time.
struct Bus {
    boards: [Board; 2],
    now: i64,
}

impl Bus {
    fn started(random: &mut Random) -> Bus {
        let now = random.below(1_000_000_000) as i64 - 500_000_000;
        let boards = [0, 1].map(|number| Board::started(number, now, random));
        Bus { boards, now }
    }

    /// The time that a frame or a board takes: at least this, and beside it
    /// none, about a tick, or any.
    fn wait(&mut self, least: u32, random: &mut Random) {
        let any = random.below(3_000_000) as i64;
        self.now += i64::from(least);
        self.now += random.pick(&[0, 1, 949_999, 999_999, 1_000_000, any, any]);
        for board in &mut self.boards {
            board.count_until(self.now, random);
            board.check(self.now);
        }
    }

    /// Lets one board ask the other, and returns its answer to the reply. Both
    /// frames take at least one of these times, which the board knows.
    fn exchange(&mut self, times: &[u32], random: &mut Random) -> String {
        let asking = random.below(2) as usize;
        let asked = 1 - asking;
        self.wait(0, random);
        let (out_time, back_time) = (random.pick(times), random.pick(times));
        let keeper = &mut self.boards[asking].keeper;
        ask(keeper, format!("(flight {asked} ({out_time} {back_time}))"));
        ask(keeper, format!("(request {asked})"));
        let tag = keeper.requests;
        self.wait(out_time, random);
        let [trailing, leading] = self.boards[asked].told();
        self.wait(back_time, random);
        let reply = format!("(reply {asked} {tag} ({trailing} {leading}))");
        let answer = ask(&mut self.boards[asking].keeper, reply);
        self.boards[asking].check(self.now);
        answer
    }
}

/// Checks many exchanges in which the boards know some of these times.
fn check_exchanges(times: &[u32], mut random: Random) {
    let mut seen = [0, 0];
    for _ in 0..1000 {
        let mut bus = Bus::started(&mut random);
        for _ in 0..10 {
            let answer = bus.exchange(times, &mut random);
            for (count, word) in seen.iter_mut().zip(["(taken", "(kept"]) {
                *count += u32::from(answer.starts_with(word));
            }
        }
    }
    assert_eq!(seen[0] + seen[1], 10_000, "{seen:?}");
    assert!(seen.iter().all(|&count| count > 1000), "{seen:?}");
}

#[test]
fn the_edges_hold_the_true_time() {
    check_exchanges(&[0], Random(0x7121_E71A_3E00_0005));
}

#[test]
fn the_edges_hold_the_true_time_with_flight_times() {
    let times = [0, 1, 400_000, 1_000_200, 5_000_000];
    check_exchanges(&times, Random(0xF116_4771_3E00_0007));
}
