//! Input for a rehearsal, the same for the same seed. The generator runs each line that it makes,
//! so that its clients know what to say next.

mod clients;
mod clocks;
mod counts;
mod damage;
mod full;
mod lost;
mod profile;
mod random;
mod said;
mod values;
mod world;

pub use profile::Profile;
pub use random::Random;

use full::Filling;
use lost::{Fate, Flying};
use said::Said;
use std::collections::VecDeque;
use std::io::{Result, Write};
use world::World;

/// Writes an input of so many lines.
pub fn generate(seed: u64, lines: u64, profile: Profile, mut out: impl Write) -> Result<()> {
    let mut generator = Generator::new(seed, lines, profile);
    for number in 1..=lines {
        let mut line = generator.line();
        if number < lines || !profile.leaves_last_line_unended() {
            line.push(b'\n');
        }
        out.write_all(&line)?;
    }
    out.flush()
}

/// What makes the lines of one input.
pub struct Generator {
    world: World,
    profile: Profile,
    lines: u64,
    made: u64,
    opening: VecDeque<Vec<u8>>,
    part: Profile,
    part_ends: u64,
    pending: VecDeque<Said>,
    flying: Vec<Flying>,
    filling: Filling,
    scenes: u64,
}

impl Generator {
    pub fn new(seed: u64, lines: u64, profile: Profile) -> Generator {
        let mut world = World::new(seed);
        let opening = opening(&mut world, profile);
        Generator {
            world,
            profile,
            lines,
            made: 0,
            opening,
            part: profile,
            part_ends: 0,
            pending: VecDeque::new(),
            flying: Vec::new(),
            filling: Filling::default(),
            scenes: 0,
        }
    }

    /// The next line, without its LF.
    pub fn line(&mut self) -> Vec<u8> {
        let line = match self.opening.pop_front() {
            Some(line) => line,
            None => self.spoken(),
        };
        self.world.hear(&line);
        self.made += 1;
        line
    }

    fn spoken(&mut self) -> Vec<u8> {
        self.choose_part();
        let (said, now) = match self.part {
            Profile::Lost => self.lost(),
            Profile::Full => self.full(),
            Profile::Counts => self.counts(),
            Profile::Clocks => (clients::speak(&mut self.world), self.edge()),
            Profile::Rules | Profile::Damaged | Profile::Mix => {
                (clients::speak(&mut self.world), clocks::ordinary(&mut self.world))
            }
        };
        let line = said.line(now);
        match self.part == Profile::Damaged && self.world.random.chance(50) {
            true => damage::damage(&mut self.world.random, line),
            false => line,
        }
    }

    /// In a mix, turns to another profile now and then.
    fn choose_part(&mut self) {
        if self.profile == Profile::Mix && self.made >= self.part_ends {
            let others = &Profile::ALL[..Profile::ALL.len() - 1];
            self.part = self.world.random.pick(others).unwrap_or(Profile::Rules);
            let longest = if self.part == Profile::Full { 1_500 } else { 300 };
            self.part_ends = self.made + self.world.random.from_to(30, longest);
            self.pending.clear();
        }
    }

    /// The time of a line of `clocks`: the last two fifths of an input are near the end of all
    /// time, and its last tenth at it.
    fn edge(&mut self) -> u64 {
        let clock = self.world.machine().clock();
        let tenths = (10 * self.made).checked_div(self.lines).unwrap_or(0);
        match tenths {
            _ if self.profile == Profile::Mix && tenths < 9 => clocks::at_edge(&mut self.world),
            9.. => clocks::at_end(&mut self.world),
            6.. if clock < 1 << 47 => clocks::near_end(&mut self.world),
            _ => clocks::at_edge(&mut self.world),
        }
    }

    /// A line of `lost`: one that arrives late, or a new one by its fate.
    fn lost(&mut self) -> (Said, u64) {
        loop {
            if let Some(at) = self.flying.iter().position(|flying| flying.due <= self.made) {
                let Flying { said, now, .. } = self.flying.swap_remove(at);
                return (said, now.unwrap_or_else(|| clocks::ordinary(&mut self.world)));
            }
            let said = self.sent();
            let fate = lost::fate(&mut self.world);
            if matches!(fate, Fate::Late | Fate::Twice) {
                self.flying.push(lost::delay(&mut self.world, self.made, said.clone()));
            }
            if matches!(fate, Fate::Arrives | Fate::Twice) {
                return (said, clocks::ordinary(&mut self.world));
            }
        }
    }

    /// What a client of `lost` sends next.
    fn sent(&mut self) -> Said {
        if let Some(said) = self.pending.pop_front() {
            return said;
        }
        let said = match self.world.random.below(100) {
            0..=9 => {
                self.pending.extend(lost::burst(&mut self.world));
                self.pending.pop_front()
            }
            10..=17 => lost::careless(&mut self.world),
            _ => None,
        };
        said.unwrap_or_else(|| clients::speak(&mut self.world))
    }

    fn full(&mut self) -> (Said, u64) {
        let (said, ends_all) = self.filling.speak(&mut self.world);
        match ends_all {
            true => (said, clocks::after_all(&self.world)),
            false => (said, clocks::still(&mut self.world)),
        }
    }

    /// A line of `counts`: the scene's next, or what finishes a sealed session, or a new scene.
    fn counts(&mut self) -> (Said, u64) {
        let world = &mut self.world;
        let mut said = self.pending.pop_front();
        if said.is_none() {
            said = clients::finish(world);
        }
        if said.is_none() {
            self.scenes += 1;
            self.pending.extend(match self.scenes == 2 && self.profile == Profile::Counts {
                true => counts::long_scene(world),
                false => counts::scene(world),
            });
            said = self.pending.pop_front();
        }
        (said.unwrap_or_else(|| clients::get(world)), clocks::still(world))
    }
}

/// The lines to READY: an A line, with lines before it that do not start where lines are damaged.
fn opening(world: &mut World, profile: Profile) -> VecDeque<Vec<u8>> {
    let mut lines = VecDeque::new();
    if profile.leaves_last_line_unended() {
        let starts = damage::starts();
        for _ in 0..world.random.below(8) {
            lines.extend(world.random.pick(&starts[1..]));
        }
    }
    let mut lifetimes = profile.lifetimes().map(|(first, last)| world.random.from_to(first, last));
    if profile == Profile::Clocks && world.random.chance(20) {
        lifetimes = [1, 1];
    }
    lines.push_back(Said::plain(b'A', &lifetimes).line(0));
    lines
}
