//! 01, "Slips we have met": the mistakes that can be planted in the procedures.

/// 01, "Slips we have met": one of them can be planted, so that the tests can be shown to find it.
#[derive(Clone, Copy, Debug, PartialEq, Eq)]
pub enum Slip {
    /// The last-used server passes as up to date without the check.
    LastUsedTrusted,
    /// A write's clock is 1 plus the server's own component.
    ClockOfOwnWrites,
    /// An exchange that can't take all lacking writes takes the last in write order.
    NewestFirst,
    /// A read raises the read-vector only if MR was chosen.
    ReadVectorOnlyUnderMr,
    /// Where 7 is due, 6 is answered.
    BehindForAFullLog,
}

impl Slip {
    /// Every slip once, in 01's order.
    pub const ALL: [Slip; 5] = [
        Slip::LastUsedTrusted,
        Slip::ClockOfOwnWrites,
        Slip::NewestFirst,
        Slip::ReadVectorOnlyUnderMr,
        Slip::BehindForAFullLog,
    ];

    /// The slip's name on a command line.
    pub fn name(self) -> &'static str {
        match self {
            Slip::LastUsedTrusted => "last-used-trusted",
            Slip::ClockOfOwnWrites => "clock-of-own-writes",
            Slip::NewestFirst => "newest-first",
            Slip::ReadVectorOnlyUnderMr => "read-vector-only-under-mr",
            Slip::BehindForAFullLog => "behind-for-a-full-log",
        }
    }

    /// The slip of this name, if there is one.
    pub fn named(name: &str) -> Option<Slip> {
        Slip::ALL.iter().copied().find(|slip| slip.name() == name)
    }
}
