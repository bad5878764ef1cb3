//! The means by which an operation finds its values.
//!
//! Each operation's arguments, causes and lent memory are in one place, a method of `Means`. Of the
//! two means, the plain lister lists walks, and the modules `fast`, `fast_account`, `fast_pairs`,
//! `fast_avoiding`, `fast_sets`, `fast_struck` and `fast_ways` add up numbers of walks.

/// The largest count, 2^64−1; one more is cause 9.
pub const COUNT_LIMIT: u64 = u64::MAX;

/// Where counts come from.
#[derive(Clone, Copy, Debug, PartialEq, Eq)]
pub enum Counting {
    /// The plain lister.
    Listed,
    /// The numbers of walks, for plans with too many to be listed.
    Fast,
}

impl Counting {
    /// The means with the largest count of document 01.
    pub fn means(self) -> Means {
        match self {
            Counting::Listed => LISTED,
            Counting::Fast => COUNTED,
        }
    }
}

/// Where counts come from, and the largest of them.
#[derive(Clone, Copy, Debug)]
pub struct Means {
    pub counting: Counting,
    /// The largest count; one more is cause 9.
    pub limit: u64,
}

/// The plain lister.
pub const LISTED: Means = Means {
    counting: Counting::Listed,
    limit: COUNT_LIMIT,
};

/// The numbers of walks.
pub const COUNTED: Means = Means {
    counting: Counting::Fast,
    limit: COUNT_LIMIT,
};

impl Means {
    /// The same with another largest count, so that a small plan can have cause 9.
    pub fn within(self, limit: u64) -> Means {
        Means { limit, ..self }
    }

    /// A name for messages.
    pub fn name(self) -> &'static str {
        match self.counting {
            Counting::Listed => "lister",
            Counting::Fast => "numbers of walks",
        }
    }
}
