//! Random lines and keepers. They look for panics, and compare the arithmetic
//! with a second one in wider numbers.

use independent::{answer_image, answer_line, Keeper, Rule};

use crate::caller::ask;
use crate::reference::grouped_line;

/// Xorshift generator, enough for tests.
pub struct Random(pub u64);

impl Random {
    pub fn next(&mut self) -> u64 {
        self.0 ^= self.0 << 13;
        self.0 ^= self.0 >> 7;
        self.0 ^= self.0 << 17;
        self.0
    }

    pub fn below(&mut self, limit: u64) -> u64 {
        self.next() % limit
    }

    pub fn pick<T: Copy>(&mut self, choices: &[T]) -> T {
        choices[self.below(choices.len() as u64) as usize]
    }
}

/// A random change of a valid command.
pub fn random_line(random: &mut Random) -> Vec<u8> {
    let mut line = random
        .pick(&[
            "(start 3 im 200 (-1000 1000))",
            "(start 3 mm 1_000 (-1_000_000 1000))",
            "(pass 100)",
            "(pass 12_345)",
            "(request 4)",
            "(reply 4 1 (-9 4000000000000000000))",
            "(reply 4 1 (-9 3_999_999_999_999_999_999))",
            "(drop 4)",
            "(read)",
            "(waiting)",
            "(window 9 (1999-12-31T23:59:58 2000-01-01T00:00:00))",
            "(window 0 (2000-02-29T00:00:00 2000-02-29T00:00:01))",
            "(flight 4 (1000000000 20))",
            "(flight 5 (250_000 1_000_000))",
        ])
        .as_bytes()
        .to_vec();
    for _ in 0..random.below(4) {
        let place = random.below(line.len() as u64) as usize;
        match random.below(6) {
            0 => line[place] = random.pick(b"() -_0123456789asimxT:"),
            1 => line.insert(place, random.pick(b"() -_0123456789asimxT:")),
            2 => line[place] = random.next() as u8,
            // Another digit keeps the shape of a date.
            3 | 4 if line[place].is_ascii_digit() => line[place] = random.pick(b"0123456789"),
            _ => {
                line.remove(place);
                line.push(b')');
            }
        }
    }
    line
}

#[test]
fn random_lines() {
    let mut random = Random(0x9E37_79B9_7F4A_7C15);
    let mut keeper = Keeper::fresh();
    for _ in 0..100_000 {
        let line = random_line(&mut random);
        ask(&mut keeper, &line);
        if random.below(50) == 0 {
            keeper = Keeper::fresh();
        }
    }
}

#[test]
fn random_images() {
    let mut random = Random(0x0123_4567_89AB_CDEF);
    let mut out = [0; 256];
    for _ in 0..20_000 {
        let mut image = [0; 360];
        image.fill_with(|| random.next() as u8);
        image[..4].copy_from_slice(&[2, 1, 3, 0]);
        let line = random_line(&mut random);
        answer_image(&mut image, &line, &mut out);
    }
}

/// What `Reply` gives, worked in i128 straight from the specification.
fn expected_reply(keeper: &Keeper, peer: usize, trailing: i64, leading: i64) -> String {
    let wait = i128::from(keeper.ticks - keeper.sent_at[peer]);
    let longest = 1_000_000 + i128::from(keeper.claim);
    let (lower, upper) = (i128::from(keeper.lower), i128::from(keeper.upper));
    let (trailing, leading) = (i128::from(trailing), i128::from(leading));
    let range = -4_000_000_000_000_000_000..=4_000_000_000_000_000_000;
    if wait > 3_600_000 {
        return "(no 8)".into();
    }
    let begin = trailing - longest + i128::from(keeper.back_times[peer]);
    let end = leading + wait * longest - i128::from(keeper.out_times[peer]);
    let (from, through) = (lower.max(begin), upper.min(end));
    if begin > end || from > through {
        return format!("(conflict {peer} ({lower} {upper}))");
    }
    if keeper.rule == Rule::Im {
        return format!("(taken {peer} ({from} {through}))");
    }
    let outward = (wait + 1) * longest;
    if leading - trailing + 2 * outward > upper - lower {
        return format!("(kept {peer} ({lower} {upper}))");
    }
    let (from, through) = (trailing - outward, leading + outward);
    if !range.contains(&from) || !range.contains(&through) {
        return "(no 5)".into();
    }
    format!("(taken {peer} ({from} {through}))")
}

/// Moments close to each other and, half of the time, to an end of the range.
fn random_interval(random: &mut Random, centre: i64) -> (i64, i64) {
    let spread = random.pick(&[
        1,
        3,
        1_000_000,
        6_000_000,
        8_000_000_000_000,
        7_000_000_000_000_000_000,
    ]);
    let range = -4_000_000_000_000_000_000..=4_000_000_000_000_000_000_i128;
    let mut moment = || {
        let offset = i128::from(random.below(spread)) - i128::from(spread / 2);
        (i128::from(centre) + offset).clamp(*range.start(), *range.end()) as i64
    };
    let (first, second) = (moment(), moment());
    (first.min(second), first.max(second))
}

#[test]
fn random_replies() {
    let mut random = Random(0xDEAD_BEEF_0BAD_F00D);
    let mut seen = [0; 5];
    for _ in 0..50_000 {
        let mut keeper = Keeper::fresh();
        keeper.started = true;
        keeper.rule = random.pick(&[Rule::Im, Rule::Mm]);
        keeper.claim = random.pick(&[0, 1, 200, 50_000]);
        let end = 4_000_000_000_000_000_000;
        let centre = random.pick(&[0, 12_345_678_901, end, -end]);
        (keeper.lower, keeper.upper) = random_interval(&mut random, centre);
        keeper.requests = 1;
        keeper.waiting = 1 << 4;
        keeper.tags[4] = 1;
        keeper.sent_at[4] = random.below(1_000_000);
        let wait = random.pick(&[0, 1, 2, 1000, 3_600_000, 3_600_001]);
        keeper.ticks = keeper.sent_at[4] + wait;
        let times = [0, 0, 1, 500_000, 1_000_000, 1_000_000_000];
        // Those of the other places must make no difference.
        keeper.out_times = [(); 16].map(|()| random.pick(&times));
        keeper.back_times = [(); 16].map(|()| random.pick(&times));
        let (trailing, leading) = random_interval(&mut random, centre);
        let expected = expected_reply(&keeper, 4, trailing, leading);
        assert_eq!(
            ask(&mut keeper, format!("(reply 4 1 ({trailing} {leading}))")),
            expected
        );
        for (count, word) in seen
            .iter_mut()
            .zip(["(taken", "(kept", "(conflict", "(no 5", "(no 8"])
        {
            *count += u32::from(expected.starts_with(word));
        }
    }
    assert!(seen.iter().all(|&count| count > 100), "{seen:?}");
}

#[test]
fn random_passes() {
    let mut random = Random(0x5555_1234_ABCD_0001);
    let end = 4_000_000_000_000_000_000_i128;
    for _ in 0..20_000 {
        let mut keeper = Keeper::fresh();
        keeper.started = true;
        keeper.claim = random.below(50_001) as u16;
        let centre = random.pick(&[0, end as i64, -end as i64]);
        (keeper.lower, keeper.upper) = random_interval(&mut random, centre);
        keeper.ticks = random.pick(&[0, 17, end as u64 - 1000, end as u64]);
        let count = random.pick(&[0, 1, 999, 1000, 1001, 86_400_000]);
        let claim = i128::from(keeper.claim);
        let lower = i128::from(keeper.lower) + count * (1_000_000 - claim);
        let upper = i128::from(keeper.upper) + count * (1_000_000 + claim);
        let ticks = i128::from(keeper.ticks) + count;
        let expected = if lower < -end || upper > end || ticks > end {
            "(no 5)".into()
        } else {
            format!("(at {ticks} ({lower} {upper}))")
        };
        assert_eq!(ask(&mut keeper, format!("(pass {count})")), expected);
    }
}

#[test]
fn random_reads() {
    let mut random = Random(0x7EAD_0F7E_AD0F_0001);
    let end = 4_000_000_000_000_000_000;
    let mut above_the_range = 0;
    for _ in 0..20_000 {
        let mut keeper = Keeper::fresh();
        keeper.started = true;
        keeper.claim = random.below(50_001) as u16;
        let centre = random.pick(&[0, 1_000_000, -1_000_000, end, -end]);
        (keeper.lower, keeper.upper) = random_interval(&mut random, centre);
        let lower = i128::from(keeper.lower);
        let upper = i128::from(keeper.upper) + 1_000_000 + i128::from(keeper.claim);
        // The largest number of which the double is at most the sum.
        let centre = (lower + upper) >> 1;
        let error = upper - centre;
        let expected = format!("(time ({lower} {upper}) ({centre} {error}) 0 0)");
        assert_eq!(ask(&mut keeper, "(read)"), expected);
        above_the_range += u32::from(upper > i128::from(end));
    }
    assert!(above_the_range > 1000, "{above_the_range}");
}

#[test]
fn random_numerals() {
    let mut random = Random(77);
    for _ in 0..20_000 {
        let bits = random.below(62);
        let edge = (random.next() >> (63 - bits)) as i64 % 4_000_000_000_000_000_001;
        let edge = if random.below(2) == 0 { edge } else { -edge };
        let line = format!("(start 0 im 0 ({edge} {edge}))");
        let mut keeper = Keeper::fresh();
        ask(&mut keeper, grouped_line(&line, random.next() as u32));
        let (upper, centre) = (edge + 1_000_000, edge + 500_000);
        assert_eq!(
            ask(&mut keeper, "(read)"),
            format!("(time ({edge} {upper}) ({centre} 500000) 0 0)")
        );
    }
}

#[test]
fn random_bytes() {
    let mut random = Random(99);
    let mut keeper = Keeper::fresh();
    let mut out = [0; 256];
    for _ in 0..20_000 {
        let length = random.below(170) as usize;
        let line: Vec<u8> = (0..length).map(|_| random.next() as u8).collect();
        assert_eq!(answer_line(&mut keeper, &line, &mut out).number, 1);
    }
}
