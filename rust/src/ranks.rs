//! Ranks of letters.
use crate::{Group1, Order, Table, TableStore};
use std::fmt;

/// A rank for each of the 256 letters of a text of bytes: letters are compared by rank, and letters of one rank count as the same letter.
/// Those of the default order are [`Ranks::default`].
#[derive(Clone, Debug, PartialEq, Eq, Hash)]
pub struct Ranks([u8; 256]);

impl Ranks {
    /// Letter `a` has rank `table[a]`.
    ///
    /// ```
    /// let folded = lyndon::Ranks::new(std::array::from_fn(|letter| (letter as u8).to_ascii_uppercase()));
    /// assert_eq!(folded.rank(b'a'), folded.rank(b'A'));
    /// assert_eq!(folded, lyndon::Ranks::default());
    /// ```
    pub const fn new(table: [u8; 256]) -> Ranks {
        Ranks(table)
    }

    /// Ranks by groups of letters: those of the first group have rank 0, those of the next 1, and so on; all letters that no group names
    /// have the rank after the last group's. A group may be empty: then no letter has its rank. A letter is a byte, so a string names the
    /// bytes of its UTF-8.
    ///
    /// # Errors
    ///
    /// Where a letter is named twice, or a rank would be above 255 ([`GroupError`]).
    ///
    /// ```
    /// use lyndon::{GroupError, Ranks};
    ///
    /// let ranks = Ranks::from_groups(&[b"Aa", b"Cc", b"Gg", b"Tt"])?;
    /// assert_eq!((ranks.rank(b'A'), ranks.rank(b't'), ranks.rank(b'N'), ranks.rank(b'-')), (0, 3, 4, 4));
    ///
    /// // Groups of several lengths: as slices, or as strings.
    /// let weak_first = Ranks::from_groups(&[b"AT".as_slice(), b"C", b"G"])?;
    /// assert_eq!(weak_first, Ranks::from_groups(&["AT", "C", "G"])?);
    ///
    /// assert_eq!(Ranks::from_groups(&["AT", "TC"]), Err(GroupError::NamedTwice(b'T')));
    /// # Ok::<(), GroupError>(())
    /// ```
    pub fn from_groups<G: AsRef<[u8]>>(groups: &[G]) -> Result<Ranks, GroupError> {
        let mut named = [None; 256];
        for (rank, group) in groups.iter().enumerate() {
            for &letter in group.as_ref() {
                if named[usize::from(letter)].replace(rank).is_some() {
                    return Err(GroupError::NamedTwice(letter));
                }
            }
        }
        let mut table = [0; 256];
        for (place, rank) in table.iter_mut().zip(named) {
            *place = u8::try_from(rank.unwrap_or(groups.len())).map_err(|_| GroupError::TooMany(groups.len()))?;
        }
        Ok(Ranks(table))
    }

    /// The rank of a letter.
    pub const fn rank(&self, letter: u8) -> u8 {
        self.0[letter as usize]
    }

    /// The ranks of the letters 0 to 255.
    pub const fn as_bytes(&self) -> &[u8; 256] {
        &self.0
    }
}

impl Default for Ranks {
    /// The ranks of the default order, that of [`factorization`](crate::factorization), [`suffix_table`](crate::suffix_table) and
    /// [`left_forest`](crate::left_forest): `a` to `z` rank as `A` to `Z`, every other letter by its number. They are the library's built-in
    /// table 1.
    ///
    /// By them [`lyndon_array_ranked`](crate::lyndon_array_ranked) gives the array that goes with such a factorization: in one order, texts with
    /// equal arrays have equal factors and right forests, and in two orders they need not.
    ///
    /// ```
    /// use lyndon::{factorization, factorization_ranked, lyndon_array, lyndon_array_ranked, Order, Ranks};
    ///
    /// // One factor of two letters, in the default order.
    /// assert_eq!(factorization(b"aB")?.starts, [0]);
    /// assert_eq!(lyndon_array_ranked(b"aB", &Ranks::default())?, [2, 1]);
    /// // Two factors of one letter, in rising order. This array does not go with the factorization above.
    /// assert_eq!(factorization_ranked(b"aB", Order::Rising)?.starts, [0, 1]);
    /// assert_eq!(lyndon_array(b"aB", Order::Rising)?, [1, 1]);
    /// # Ok::<(), lyndon::Error>(())
    /// ```
    fn default() -> Ranks {
        let table = TableStore::new().group::<Group1>().read(Table::built_in(1));
        table.expect("every store has built-in table 1")
    }
}

impl From<[u8; 256]> for Ranks {
    fn from(table: [u8; 256]) -> Ranks {
        Ranks::new(table)
    }
}

/// Why groups of letters give no ranks.
#[derive(Clone, Copy, Debug, PartialEq, Eq, Hash)]
pub enum GroupError {
    /// This letter is named twice, in one group or in two.
    NamedTwice(u8),
    /// There are so many groups, empty ones counted, that the rank of a letter would be above 255. 255 groups always fit; more fit where
    /// the first 256 name all letters.
    TooMany(usize),
}

impl fmt::Display for GroupError {
    fn fmt(&self, f: &mut fmt::Formatter<'_>) -> fmt::Result {
        match self {
            GroupError::NamedTwice(letter) => write!(f, "the letter '{}' (byte {letter}) is named twice", letter.escape_ascii()),
            GroupError::TooMany(groups) => write!(f, "{groups} groups are too many: a rank would be above 255"),
        }
    }
}

impl std::error::Error for GroupError {}

/// How two letters compare in a ranked call: by number, as in an [`Order`], or by rank. In all of them a proper prefix is smaller than the
/// longer word.
#[derive(Clone, Copy, Debug, PartialEq, Eq, Hash)]
pub enum LetterOrder<'a> {
    /// By number.
    Rising,
    /// By number, turned round.
    Falling,
    /// By rank. All answers are those of the rising order for the row of ranks.
    Ranked(&'a Ranks),
}

impl<'a> LetterOrder<'a> {
    /// The number that the C interface has for it: 0, 1 or 2.
    pub fn number(self) -> u32 {
        match self {
            LetterOrder::Rising => 0,
            LetterOrder::Falling => 1,
            LetterOrder::Ranked(_) => 2,
        }
    }

    /// The rank table that goes with the number: that of the ranks, else none.
    pub(crate) fn table(self) -> &'a [u8] {
        match self {
            LetterOrder::Ranked(ranks) => ranks.as_bytes(),
            _ => &[],
        }
    }
}

impl From<Order> for LetterOrder<'_> {
    fn from(order: Order) -> Self {
        match order {
            Order::Rising => LetterOrder::Rising,
            Order::Falling => LetterOrder::Falling,
        }
    }
}

impl<'a> From<&'a Ranks> for LetterOrder<'a> {
    fn from(ranks: &'a Ranks) -> Self {
        LetterOrder::Ranked(ranks)
    }
}
