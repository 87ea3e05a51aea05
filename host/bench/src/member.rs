//! The members, for the sides in plain Rust: one list, in the order of the engine's table.

use engine::memory::MEMBERS;

macro_rules! members {
    ($($member:ident $name:literal $arguments:literal,)*) => {
        #[derive(Clone, Copy)]
        pub enum Member {
            $($member,)*
        }

        /// Each member's name and how many arguments it takes.
        pub const TABLE: &[(&[u8], usize)] = &[$(($name, $arguments),)*];

        /// The member of a name and how many arguments it takes.
        pub fn named(word: &[u8]) -> Option<(Member, usize)> {
            match word {
                $($name => Some((Member::$member, $arguments)),)*
                _ => None,
            }
        }
    };
}

members! {
    Add b"add" 1,
    Sub b"sub" 1,
    Mul b"mul" 1,
    Div b"div" 1,
    Gt b"gt" 1,
    Eq b"eq" 1,
    Skip b"skip" 1,
    Take b"take" 1,
    Count b"count" 0,
    Sum b"sum" 0,
    Min b"min" 0,
    Max b"max" 0,
    At b"at" 1,
    CountWhere b"countWhere" 1,
    LongestRun b"longestRun" 1,
    SumBy b"sumBy" 1,
    BestSum b"bestSum" 1,
    BestAt b"bestAt" 1,
}

impl Member {
    /// The kind of its entries.
    pub const fn kind(self) -> u16 {
        MEMBERS + self as u16
    }
}
