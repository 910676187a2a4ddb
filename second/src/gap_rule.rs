//! The two rules for the gaps of a log; whoever reads one says which it was written under.

#[derive(Clone, Copy, Debug, PartialEq, Eq)]
pub enum GapRule {
    Old,
    New,
}

impl GapRule {
    /// The largest gap; a stored one means at least so many steps.
    pub const fn ceiling(self) -> u32 {
        match self {
            GapRule::Old => (1 << 21) - 1,
            GapRule::New => u32::MAX,
        }
    }

    pub const fn name(self) -> &'static str {
        match self {
            GapRule::Old => "old",
            GapRule::New => "new",
        }
    }

    pub const fn most_groups(self) -> usize {
        match self {
            GapRule::Old => 3,
            GapRule::New => 5,
        }
    }
}
