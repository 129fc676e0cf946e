//! The ranges that the numbers of random plans are drawn from.

use crate::plans::Kind;

/// The ranges that the numbers of a plan are drawn from, both ends included.
pub(crate) struct Shape {
    pub byte: (u64, u64),
    pub heads: Heads,
    pub slots: (u64, u64),
    pub slot_bytes: (u64, u64),
    pub processes: (u64, u64),
    pub ticks: Ticks,
    pub conditions: (u64, u64),
    pub edges: (u64, u64),
    pub any_percent: u64,
    /// Whether the slots never stand in node order where there are several.
    pub turned: bool,
}

/// The ranges that the ticks of a process are drawn from, both ends included.
pub(crate) enum Ticks {
    /// One range.
    Within((u64, u64)),
    /// One of these ranges, each as likely as the others.
    OneOf(&'static [(u64, u64)]),
}

/// In how many cases of a hundred a plan has no head, and in how many the longest. In the others
/// its head is any.
pub(crate) struct Heads {
    pub none_percent: u64,
    pub longest_percent: u64,
}

/// The bytes of the longest head.
pub(crate) const LONGEST_HEAD: u64 = 16;

pub(crate) const ANY_HEAD: Heads = Heads {
    none_percent: 25,
    longest_percent: 15,
};

pub(crate) const MOSTLY_LONGEST_HEAD: Heads = Heads {
    none_percent: 5,
    longest_percent: 75,
};

pub(crate) const OFTEN_NO_HEAD: Heads = Heads {
    none_percent: 50,
    longest_percent: 10,
};

pub(crate) const NO_HEAD: Heads = Heads {
    none_percent: 100,
    longest_percent: 0,
};

pub(crate) const TINY: Shape = Shape {
    byte: (1, 3),
    heads: ANY_HEAD,
    slots: (1, 3),
    slot_bytes: (1, 4),
    processes: (1, 6),
    ticks: Ticks::Within((1, 9)),
    conditions: (0, 3),
    edges: (0, 8),
    any_percent: 40,
    turned: false,
};

pub(crate) const DENSE_BUS: Shape = Shape {
    byte: (1, 2),
    heads: ANY_HEAD,
    slots: (2, 5),
    slot_bytes: (1, 6),
    processes: (6, 24),
    ticks: Ticks::Within((1, 5)),
    conditions: (0, 3),
    edges: (12, 60),
    any_percent: 40,
    turned: false,
};

pub(crate) const MANY_CONDITIONS: Shape = Shape {
    byte: (1, 5),
    heads: ANY_HEAD,
    slots: (1, 6),
    slot_bytes: (1, 8),
    processes: (6, 24),
    ticks: Ticks::Within((1, 30)),
    conditions: (4, 6),
    edges: (6, 40),
    any_percent: 60,
    turned: false,
};

pub(crate) const LARGEST: Shape = Shape {
    byte: (1, 1_000),
    heads: ANY_HEAD,
    slots: (8, 8),
    slot_bytes: (1, 64),
    processes: (64, 64),
    ticks: Ticks::Within((1, 100_000)),
    conditions: (6, 6),
    edges: (128, 128),
    any_percent: 60,
    turned: false,
};

pub(crate) const LONGEST_ROUND: Shape = Shape {
    byte: (1_000, 1_000),
    heads: MOSTLY_LONGEST_HEAD,
    slots: (8, 8),
    slot_bytes: (64, 64),
    processes: (2, 20),
    ticks: Ticks::Within((1, 100_000)),
    conditions: (0, 4),
    edges: (1, 30),
    any_percent: 50,
    turned: false,
};

pub(crate) const SHORTEST_ROUND: Shape = Shape {
    byte: (1, 1),
    heads: OFTEN_NO_HEAD,
    slots: (1, 3),
    slot_bytes: (1, 1),
    processes: (1, 16),
    ticks: Ticks::Within((1, 3)),
    conditions: (0, 4),
    edges: (0, 24),
    any_percent: 50,
    turned: false,
};

pub(crate) const UNEVEN_BUS: Shape = Shape {
    byte: (1, 2),
    heads: ANY_HEAD,
    slots: (2, 6),
    slot_bytes: (1, 2),
    processes: (10, 20),
    ticks: Ticks::Within((1, 3)),
    conditions: (0, 3),
    edges: (16, 40),
    any_percent: 30,
    turned: true,
};

pub(crate) const SHORTEST_LONG_TICKS: Shape = Shape {
    ticks: Ticks::Within((1, 100_000)),
    ..SHORTEST_ROUND
};

/// Mostly half the longest time and more, now and then the longest or a few ticks.
const LONG_TICKS: Ticks = Ticks::OneOf(&[
    (50_000, 100_000),
    (50_000, 100_000),
    (50_000, 100_000),
    (50_000, 100_000),
    (100_000, 100_000),
    (1, 9),
]);

pub(crate) const LONG_GAPS: Shape = Shape {
    byte: (1, 3),
    heads: OFTEN_NO_HEAD,
    slots: (1, 4),
    slot_bytes: (1, 2),
    processes: (2, 20),
    ticks: LONG_TICKS,
    conditions: (0, 4),
    edges: (1, 30),
    any_percent: 50,
    turned: false,
};

/// Rounds of 1, 2 and 3 ticks.
pub(crate) const LONG_GAPS_FEW_TICKS: Shape = Shape {
    byte: (1, 1),
    heads: NO_HEAD,
    slots: (1, 3),
    slot_bytes: (1, 1),
    ..LONG_GAPS
};

/// The shape of a kind's plans; those of `NestedAny` have one of their own.
pub(crate) fn shape(kind: Kind) -> &'static Shape {
    match kind {
        Kind::Tiny | Kind::NestedAny => &TINY,
        Kind::DenseBus => &DENSE_BUS,
        Kind::ManyConditions => &MANY_CONDITIONS,
        Kind::Largest => &LARGEST,
        Kind::LongestRound => &LONGEST_ROUND,
        Kind::ShortestRound => &SHORTEST_ROUND,
        Kind::UnevenBus => &UNEVEN_BUS,
        Kind::LongGaps => &LONG_GAPS,
    }
}
