//! The profiles of generated input.

/// What the lines of an input are like.
#[derive(Clone, Copy, Debug, PartialEq, Eq)]
pub enum Profile {
    /// Clients that keep the rules.
    Rules,
    /// Lines lost, repeated and late, and careless clients.
    Lost,
    /// Tables filled to their last row.
    Full,
    /// Times at and beside deadlines, and at the end of all time.
    Clocks,
    /// Counts about 2^64, values about 64 bytes, a session of 1,000 steps.
    Counts,
    /// Bytes changed in good lines.
    Damaged,
    /// All of these in turn.
    Mix,
}

impl Profile {
    pub const ALL: [Profile; 7] = [
        Profile::Rules,
        Profile::Lost,
        Profile::Full,
        Profile::Clocks,
        Profile::Counts,
        Profile::Damaged,
        Profile::Mix,
    ];

    pub fn name(self) -> &'static str {
        match self {
            Profile::Rules => "rules",
            Profile::Lost => "lost",
            Profile::Full => "full",
            Profile::Clocks => "clocks",
            Profile::Counts => "counts",
            Profile::Damaged => "damaged",
            Profile::Mix => "mix",
        }
    }

    pub fn named(name: &str) -> Option<Profile> {
        Profile::ALL.into_iter().find(|profile| profile.name() == name)
    }

    /// The bounds of the two lifetimes that its A line gives.
    pub fn lifetimes(self) -> [(u64, u64); 2] {
        match self {
            Profile::Rules | Profile::Lost | Profile::Damaged => [(200, 2_000), (1_000, 10_000)],
            Profile::Full | Profile::Counts => [(100_000, 600_000), (100_000, 600_000)],
            Profile::Clocks => [(1, 30), (1, 100)],
            Profile::Mix => [(50, 500), (300, 3_000)],
        }
    }

    /// Whether its last line has no LF.
    pub fn leaves_last_line_unended(self) -> bool {
        matches!(self, Profile::Damaged | Profile::Mix)
    }
}
