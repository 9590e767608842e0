//! Rank tables of two groups.
use crate::{all_factors, all_runs, counted, factors_counted, ffi, filled, forest};
use crate::{Error, FactorCount, Factorization, Forest, Ranks, Run};
use std::borrow::{Borrow, BorrowMut};
use std::fmt::Debug;
use std::hash::Hash;
use std::marker::PhantomData;

mod sealed {
    pub trait Sealed {}
    impl Sealed for super::Group1 {}
    impl Sealed for super::Group2 {}
}

/// One of the two groups of users that share a [`TableStore`]: [`Group1`] or [`Group2`].
pub trait Group: sealed::Sealed + Copy + Debug + Eq + Hash {
    /// The number that the C interface has for it: 1 or 2.
    const NUMBER: u32;
}

/// The first group.
#[derive(Clone, Copy, Debug, PartialEq, Eq, Hash)]
pub enum Group1 {}

/// The second group.
#[derive(Clone, Copy, Debug, PartialEq, Eq, Hash)]
pub enum Group2 {}

impl Group for Group1 {
    const NUMBER: u32 = 1;
}

impl Group for Group2 {
    const NUMBER: u32 = 2;
}

/// A table that group `G` can name: one of its own, or a built-in one. Whether there is one of that number, and whether it is written, is
/// found when it is used.
#[derive(Clone, Copy, Debug, PartialEq, Eq, Hash)]
pub struct Table<G> {
    built_in: bool,
    number: u32,
    group: PhantomData<G>,
}

impl<G: Group> Table<G> {
    /// A table of the group's own: 0, 1 or 2.
    pub const fn own(number: u32) -> Table<G> {
        Table { built_in: false, number, group: PhantomData }
    }

    /// A built-in table: 0 ranks each letter by its number; 1 ranks `a` to `z` as `A` to `Z`, and every other letter by its number, as
    /// the default order does ([`Ranks::default`]).
    pub const fn built_in(number: u32) -> Table<G> {
        Table { built_in: true, number, group: PhantomData }
    }

    fn name(self) -> ffi::TableName {
        ffi::TableName { group: G::NUMBER, built_in: self.built_in.into(), number: self.number }
    }
}

/// A store of rank tables for two groups: three tables of each group's own, none of them written at first, and two built-in ones that
/// nobody changes. What a group gets from its calls does not depend on the calls of the other group.
///
/// ```
/// use lyndon::{Group1, Group2, Ranks, Table, TableStore};
///
/// let mut store = TableStore::new();
/// let table = store.group_mut::<Group1>().write(0, &Ranks::from_groups(&["Tt", "Gg", "Cc", "Aa"])?)?;
/// let (one, two) = (store.group::<Group1>(), store.group::<Group2>());
/// assert_eq!(one.lyndon_array(table, b"TaTAt")?, [2, 1, 2, 1, 1]);
/// // Each group has tables of its own: this one is not written.
/// assert_eq!(two.lyndon_array(Table::own(0), b"TaTAt").unwrap_err().number, 22);
/// assert_eq!(two.lyndon_array(Table::built_in(1), b"TaTAt")?, [1, 2, 1, 2, 1]);
/// # Ok::<(), Box<dyn std::error::Error>>(())
/// ```
#[derive(Clone, Debug, PartialEq, Eq)]
pub struct TableStore(ffi::Store);

impl TableStore {
    /// The number of bytes of a store, 1542: six tables of 256, and a flag of each.
    pub const BYTES: usize = std::mem::size_of::<ffi::Store>();

    /// A store in which no table is written.
    pub fn new() -> TableStore {
        TableStore(ffi::store_new())
    }

    /// The store as bytes, as C has it: the tables of group 1, then those of group 2, then a flag for each in the same order, 0 for a table
    /// that is not written.
    ///
    /// ```
    /// use lyndon::{Group2, Ranks, TableStore};
    /// let mut store = TableStore::new();
    /// store.group_mut::<Group2>().write(0, &Ranks::new([7; 256]))?;
    /// let bytes = store.to_bytes();
    /// assert_eq!(bytes[TableStore::BYTES - 6..], [0, 0, 0, 1, 0, 0]);
    /// assert_eq!(TableStore::from_bytes(bytes), store);
    /// # Ok::<(), lyndon::Error>(())
    /// ```
    pub fn to_bytes(&self) -> [u8; TableStore::BYTES] {
        let TableStore(store) = self;
        let mut bytes = [0; TableStore::BYTES];
        let (tables, written) = bytes.split_at_mut(store.tables.len());
        tables.copy_from_slice(&store.tables);
        written.copy_from_slice(&store.written);
        bytes
    }

    /// The store that [`to_bytes`](Self::to_bytes) gives as these bytes. Any bytes are a store: a table is written where its flag is not 0.
    pub fn from_bytes(bytes: [u8; TableStore::BYTES]) -> TableStore {
        let mut store = ffi::store_new();
        let (tables, written) = bytes.split_at(store.tables.len());
        store.tables.copy_from_slice(tables);
        store.written.copy_from_slice(written);
        TableStore(store)
    }

    /// The tables as a group has them, to be used and read. Handles of both groups can be held at once.
    pub fn group<G: Group>(&self) -> GroupTables<&TableStore, G> {
        GroupTables { store: self, group: PhantomData }
    }

    /// The tables as a group has them, to be written too.
    pub fn group_mut<G: Group>(&mut self) -> GroupTables<&mut TableStore, G> {
        GroupTables { store: self, group: PhantomData }
    }
}

impl Default for TableStore {
    fn default() -> TableStore {
        TableStore::new()
    }
}

/// The tables of a [`TableStore`] as group `G` has them: `S` is `&TableStore` ([`TableStore::group`]) or `&mut TableStore`
/// ([`TableStore::group_mut`]). A number that no table has is refused (refusal 21), and so is an own table that is not written (22).
///
/// A group's own table can be named, and a table of the other group cannot:
///
/// ```
/// use lyndon::*;
/// let store = TableStore::new();
/// let table = Table::<Group1>::own(0);
/// let _ = store.group::<Group1>().lyndon_array(table, b"abab");
/// ```
/// ```compile_fail,E0308
/// use lyndon::*;
/// let store = TableStore::new();
/// let table = Table::<Group2>::own(0);
/// let _ = store.group::<Group1>().lyndon_array(table, b"abab");
/// ```
///
/// A handle of `group_mut` can write, and one of `group` cannot:
///
/// ```
/// use lyndon::*;
/// let mut store = TableStore::new();
/// let _ = store.group_mut::<Group1>().write(0, &Ranks::new([7; 256]));
/// ```
/// ```compile_fail,E0599
/// use lyndon::*;
/// let mut store = TableStore::new();
/// let _ = store.group::<Group1>().write(0, &Ranks::new([7; 256]));
/// ```
#[derive(Clone, Copy, Debug)]
pub struct GroupTables<S, G> {
    store: S,
    group: PhantomData<G>,
}

impl<S: BorrowMut<TableStore>, G: Group> GroupTables<S, G> {
    /// Writes the group's own table of a number, 0, 1 or 2, anew where it is written already; nothing else changes. Returns what names the
    /// table.
    ///
    /// # Errors
    ///
    /// Refuses any other number (refusal 21). Refusal 16 cannot be met: [`Ranks`] are always 256.
    ///
    /// ```
    /// use lyndon::{Group2, Ranks, Table, TableStore};
    /// let mut store = TableStore::new();
    /// let mut group = store.group_mut::<Group2>();
    /// assert_eq!(group.write(2, &Ranks::new([7; 256]))?, Table::own(2));
    /// assert_eq!(group.write(3, &Ranks::new([7; 256])).unwrap_err().number, 21);
    /// # Ok::<(), lyndon::Error>(())
    /// ```
    pub fn write(&mut self, number: u32, ranks: &Ranks) -> Result<Table<G>, Error> {
        let TableStore(store) = self.store.borrow_mut();
        let written = ffi::store_write(store, G::NUMBER, number, ranks.as_bytes());
        *store = written.store;
        counted(written.answer).map(|_| Table::own(number))
    }
}

impl<S: Borrow<TableStore>, G: Group> GroupTables<S, G> {
    fn store(&self) -> &ffi::Store {
        &self.store.borrow().0
    }

    /// The ranks that a table holds.
    ///
    /// # Errors
    ///
    /// Refusals 21 and 22.
    ///
    /// ```
    /// use lyndon::{Group1, Table, TableStore};
    /// let store = TableStore::new();
    /// let folded = store.group::<Group1>().read(Table::built_in(1))?;
    /// assert_eq!((folded.rank(b'a'), folded.rank(b'A'), folded.rank(b'-')), (b'A', b'A', b'-'));
    /// # Ok::<(), lyndon::Error>(())
    /// ```
    pub fn read(&self, table: Table<G>) -> Result<Ranks, Error> {
        let mut ranks = [0; 256];
        self.read_into(table, &mut ranks)?;
        Ok(Ranks::new(ranks))
    }

    /// [`read`](Self::read) into a buffer of at least 256 places. The count is 256.
    ///
    /// # Errors
    ///
    /// Refusals 21 and 22; also where `out` is too short (4).
    pub fn read_into(&self, table: Table<G>, out: &mut [u8]) -> Result<usize, Error> {
        counted(ffi::store_read(self.store(), table.name(), out))
    }

    /// [`lyndon_array_ranked`](crate::lyndon_array_ranked) by a table.
    ///
    /// # Errors
    ///
    /// Refusals 21 and 22, then those of [`lyndon_array`](crate::lyndon_array).
    pub fn lyndon_array(&self, table: Table<G>, text: &[u8]) -> Result<Vec<u32>, Error> {
        filled(text.len(), |out| self.lyndon_array_into(table, text, out))
    }

    /// [`lyndon_array`](Self::lyndon_array) into a buffer of at least `n` places. The count is `n`.
    ///
    /// # Errors
    ///
    /// Refusals 21 and 22, then those of [`lyndon_array_into`](crate::lyndon_array_into).
    pub fn lyndon_array_into(&self, table: Table<G>, text: &[u8], out: &mut [u32]) -> Result<usize, Error> {
        counted(ffi::store_array(self.store(), table.name(), text, out))
    }

    /// [`factorization_ranked`](crate::factorization_ranked) by a table.
    ///
    /// # Errors
    ///
    /// Refusals 21 and 22, then those of [`factorization`](crate::factorization).
    pub fn factorization(&self, table: Table<G>, text: &[u8]) -> Result<Factorization, Error> {
        all_factors(text.len(), |out| self.factorization_into(table, text, out))
    }

    /// [`factorization`](Self::factorization) into a buffer of at least `n` places. The count is the number of factors.
    ///
    /// # Errors
    ///
    /// Refusals 21 and 22, then those of [`factorization_into`](crate::factorization_into).
    pub fn factorization_into(&self, table: Table<G>, text: &[u8], out: &mut [u32]) -> Result<FactorCount, Error> {
        factors_counted(ffi::store_factorization(self.store(), table.name(), text, out))
    }

    /// [`suffix_table_ranked`](crate::suffix_table_ranked) by a table.
    ///
    /// # Errors
    ///
    /// Refusals 21 and 22, then those of [`suffix_table`](crate::suffix_table).
    pub fn suffix_table(&self, table: Table<G>, text: &[u8]) -> Result<Vec<u32>, Error> {
        filled(text.len(), |out| self.suffix_table_into(table, text, out))
    }

    /// [`suffix_table`](Self::suffix_table) into a buffer of at least `n` places. The count is `n`.
    ///
    /// # Errors
    ///
    /// Refusals 21 and 22, then those of [`suffix_table_into`](crate::suffix_table_into).
    pub fn suffix_table_into(&self, table: Table<G>, text: &[u8], out: &mut [u32]) -> Result<usize, Error> {
        counted(ffi::store_suffix_table(self.store(), table.name(), text, out))
    }

    /// [`left_forest_ranked`](crate::left_forest_ranked) by a table.
    ///
    /// # Errors
    ///
    /// Refusals 21 and 22, then those of [`left_forest`](crate::left_forest).
    pub fn left_forest(&self, table: Table<G>, text: &[u8]) -> Result<Forest, Error> {
        forest(text.len(), |first, past| self.left_forest_into(table, text, first, past))
    }

    /// [`left_forest`](Self::left_forest) into two buffers of at least `n` places each. The count is `n`.
    ///
    /// # Errors
    ///
    /// Refusals 21 and 22, then those of [`left_forest_into`](crate::left_forest_into).
    pub fn left_forest_into(&self, table: Table<G>, text: &[u8], first: &mut [u32], past: &mut [u32]) -> Result<usize, Error> {
        counted(ffi::store_left_forest(self.store(), table.name(), text, first, past))
    }

    /// [`runs_ranked`](crate::runs_ranked) by a table.
    ///
    /// # Errors
    ///
    /// Refusals 21 and 22, then those of [`runs`](crate::runs).
    ///
    /// ```
    /// use lyndon::{Group1, Run, Table, TableStore};
    /// let store = TableStore::new();
    /// let group = store.group::<Group1>();
    /// assert_eq!(group.runs(Table::built_in(1), b"ACgAcG")?, [Run { start: 0, last: 5, period: 3 }]);
    /// assert_eq!(group.runs(Table::built_in(0), b"ACgAcG")?, []);
    /// # Ok::<(), lyndon::Error>(())
    /// ```
    pub fn runs(&self, table: Table<G>, text: &[u8]) -> Result<Vec<Run>, Error> {
        all_runs(text.len(), |work, list| self.runs_into(table, text, work, list))
    }

    /// [`runs`](Self::runs) into a list and a work buffer as [`runs_ranked_into`](crate::runs_ranked_into) has them.
    ///
    /// # Errors
    ///
    /// Refusals 21 and 22, then those of [`runs_into`](crate::runs_into).
    pub fn runs_into(&self, table: Table<G>, text: &[u8], work: &mut [u32], list: &mut [u32]) -> Result<usize, Error> {
        counted(ffi::store_runs(self.store(), table.name(), text, work, list))
    }
}
