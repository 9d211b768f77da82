//! An input under construction.

use independent::{answer_image, fresh_image, Keeper};

use crate::fitting;
use crate::limits::{
    Image, IMAGE_LENGTH, LAST_CLAIM, LAST_MOMENT, LAST_WAIT, PEERS, SHORTEST_OUTPUT,
};
use crate::random::Random;
use crate::spelling::{some_grouped, spelled};

/// Finished lines, and the keeper that they lead to.
#[derive(Clone)]
pub struct Input {
    bytes: Vec<u8>,
    image: Image,
}

impl Input {
    pub fn new() -> Input {
        let mut image = [0; IMAGE_LENGTH];
        fresh_image(&mut image);
        Input {
            bytes: Vec::new(),
            image,
        }
    }

    /// An input whose first line starts the keeper. The edges have 19 digits
    /// for the most part, and are so far from the end of the range that no
    /// input's passes take them there.
    pub fn started(random: &mut Random, rule: &str) -> Input {
        let lower = random.between(-LAST_MOMENT, -LAST_MOMENT / 8);
        let upper = lower + random.between(0, 100_000_000_000_000);
        let claim = random.pick(&[0, 1, 200, LAST_CLAIM]);
        let board = random.place(PEERS);
        let start = format!("(start {board} {rule} {claim} ({lower} {upper}))");
        let mut input = Input::new();
        input.line(some_grouped(random, start));
        input
    }

    pub fn len(&self) -> usize {
        self.bytes.len()
    }

    pub fn bytes(&self) -> &[u8] {
        &self.bytes
    }

    /// The image of the keeper after the lines so far.
    pub fn image(&self) -> &Image {
        &self.image
    }

    fn keeper(&self) -> Keeper {
        Keeper::from_image(&self.image).expect("the image of a keeper")
    }

    /// Adds a line, given without its LF, and returns the length of its answer.
    pub fn line(&mut self, line: impl AsRef<[u8]>) -> usize {
        let line = line.as_ref();
        self.bytes.extend_from_slice(line);
        self.bytes.push(b'\n');
        let mut out = [0; SHORTEST_OUTPUT];
        answer_image(&mut self.image, line, &mut out).length
    }

    /// Adds lines that mostly move the keeper, until the input has at least
    /// this length.
    pub fn lines_up_to(&mut self, random: &mut Random, length: usize) {
        while self.len() < length {
            let line = self.fitting_line(random);
            self.line(line);
        }
    }

    /// Adds a line that fits, and lines that show the keeper after it.
    pub fn move_and_show(&mut self, random: &mut Random) {
        let line = self.fitting_line(random);
        self.line(line);
        self.line("(read)");
        self.line("(waiting)");
    }

    /// A line for the keeper as it is now. Long passes are seldom, and requests
    /// that have waited too long are dropped; otherwise most replies of a long
    /// input would be refused with 8.
    pub fn fitting_line(&self, random: &mut Random) -> Vec<u8> {
        let keeper = self.keeper();
        let late = (0..PEERS).find(|&peer| {
            keeper.waiting >> peer & 1 == 1 && keeper.ticks - keeper.sent_at[peer] > LAST_WAIT
        });
        if let Some(peer) = late.filter(|_| random.one_in(2)) {
            return format!("(drop {peer})").into_bytes();
        }
        let line = fitting::line(random, &self.image);
        let digits = line.iter().filter(|byte| byte.is_ascii_digit()).count();
        if line.starts_with(b"(pass ") && digits > 4 && !random.one_in(10) {
            let pass = format!("(pass {})", random.between(1, 9999));
            return spelled(random, pass);
        }
        line
    }

    /// Adds a request to each peer, after giving up the one that may wait, and
    /// returns the length of the answers. The line for the board itself is
    /// refused.
    pub fn ask_all(&mut self) -> usize {
        (0..PEERS)
            .map(|peer| {
                self.line(format!("(drop {peer})")) + self.line(format!("(request {peer})"))
            })
            .sum()
    }

    /// A reply of a waiting peer, if there is one, that rule im takes. Its
    /// bracket holds a moment between the own edges, whatever the flight times
    /// of the peer; if it has none, the reply names that moment.
    pub fn reply(&self) -> Option<String> {
        let keeper = self.keeper();
        let peer = (0..PEERS).find(|&peer| keeper.waiting >> peer & 1 == 1)?;
        let moment = keeper.lower + (keeper.upper - keeper.lower) / 3;
        let trailing = (moment - i64::from(keeper.back_times[peer])).max(-LAST_MOMENT);
        let leading = (moment + i64::from(keeper.out_times[peer])).min(LAST_MOMENT);
        let tag = keeper.tags[peer];
        Some(format!("(reply {peer} {tag} ({trailing} {leading}))"))
    }
}
