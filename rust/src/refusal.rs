//! The seven refusals: what each means, its number and its values.

use core::fmt;

/// Why a call was refused. A refused call leaves the head and every buffer as they were, bit for bit.
#[derive(Clone, Copy, Debug, PartialEq, Eq, Hash)]
#[non_exhaustive]
pub enum Refusal {
    /// 1: a size, a choice or the threshold in the head is outside its limits.
    Settings,
    /// 2: a lent buffer is shorter than needed.
    Room,
    /// 3: the tree check fails.
    Tree {
        /// The lowest condition that fails, 1 to 8.
        condition: u64,
    },
    /// 4, of a call that takes one row: its length is not dim.
    RowShape {
        /// Numbers in a row of this tree.
        dim: u64,
        /// Numbers in the row that was given.
        got: u64,
    },
    /// 4, of a call that takes a batch: its length is no multiple of dim.
    BatchShape {
        /// Numbers in a row of this tree.
        dim: u64,
        /// Numbers after the last whole row.
        left_over: u64,
    },
    /// 5: routing of at least one row in a tree with no entries.
    Empty,
    /// 6: the tree would count more than 2^53 rows.
    Full,
    /// 7: the output is shorter than the numbers to write.
    Output,
}

impl Refusal {
    /// The refusal of an answer's number and values, with SHAPE as a batch's; none for 0, which is accepted.
    ///
    /// The library answers 0 to 7 and nothing else.
    pub(crate) fn of(number: u32, first: u64, second: u64) -> Result<(), Refusal> {
        Err(match number {
            0 => return Ok(()),
            1 => Refusal::Settings,
            2 => Refusal::Room,
            3 => Refusal::Tree { condition: first },
            4 => Refusal::BatchShape {
                dim: first,
                left_over: second,
            },
            5 => Refusal::Empty,
            6 => Refusal::Full,
            7 => Refusal::Output,
            other => unreachable!("the library answered {other}"),
        })
    }

    /// The same of a call that takes one row: SHAPE's second value is then the row's length.
    pub(crate) fn of_row(self) -> Refusal {
        match self {
            Refusal::BatchShape { dim, left_over } => Refusal::RowShape {
                dim,
                got: left_over,
            },
            other => other,
        }
    }

    /// The refusal's number, 1 to 7.
    #[must_use]
    pub fn number(self) -> u32 {
        match self {
            Refusal::Settings => 1,
            Refusal::Room => 2,
            Refusal::Tree { .. } => 3,
            Refusal::RowShape { .. } | Refusal::BatchShape { .. } => 4,
            Refusal::Empty => 5,
            Refusal::Full => 6,
            Refusal::Output => 7,
        }
    }

    /// The refusal's name, as C has it.
    #[must_use]
    pub fn name(self) -> &'static str {
        match self {
            Refusal::Settings => "SETTINGS",
            Refusal::Room => "ROOM",
            Refusal::Tree { .. } => "TREE",
            Refusal::RowShape { .. } | Refusal::BatchShape { .. } => "SHAPE",
            Refusal::Empty => "EMPTY",
            Refusal::Full => "FULL",
            Refusal::Output => "OUTPUT",
        }
    }

    /// What is returned beside the number: nothing, a condition, or dim and a count.
    #[must_use]
    pub fn values(self) -> impl ExactSizeIterator<Item = u64> {
        let (values, count) = match self {
            Refusal::Tree { condition } => ([condition, 0], 1),
            Refusal::RowShape { dim, got } => ([dim, got], 2),
            Refusal::BatchShape { dim, left_over } => ([dim, left_over], 2),
            _ => ([0, 0], 0),
        };
        values.into_iter().take(count)
    }
}

/// What a tree that passes the check has, by the number of the condition.
fn asked(condition: u64) -> &'static str {
    match condition {
        1 => "node count 1 to N and entry count 0 to M",
        2 => "a root that exists and has no parent",
        3 => "lists within their caps, of numbers that exist",
        4 => "every node reached once by the parent it names, and every entry in one leaf",
        5 => "no empty list but a lone root's",
        6 => "leaves equally deep, and more nodes on each level than on the one above",
        7 => "whole weights that add up, 2^53 at most",
        _ => "a merged total below M",
    }
}

impl fmt::Display for Refusal {
    fn fmt(&self, f: &mut fmt::Formatter) -> fmt::Result {
        write!(f, "{}: ", self.name())?;
        match self {
            Refusal::Settings => {
                write!(f, "a size, a choice or the threshold is outside its limits")
            }
            Refusal::Room => write!(f, "a lent buffer is shorter than needed"),
            Refusal::Tree { condition } => {
                let asked = asked(*condition);
                write!(
                    f,
                    "the tree fails condition {condition} of the tree check: {asked}"
                )
            }
            Refusal::RowShape { dim, got } => {
                write!(f, "rows have {dim} numbers; this row has {got}")
            }
            Refusal::BatchShape { dim, left_over } => {
                let are = if *left_over == 1 { "is" } else { "are" };
                write!(f, "rows have {dim} numbers; {left_over} {are} left over")
            }
            Refusal::Empty => write!(f, "no row can be routed in a tree with no entries"),
            Refusal::Full => write!(f, "the tree would count more than 2^53 rows"),
            Refusal::Output => write!(f, "the output is shorter than the numbers to write"),
        }
    }
}

impl core::error::Error for Refusal {}
