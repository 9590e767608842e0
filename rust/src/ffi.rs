//! The calls of `include/lyndon.h`, with slices for pointers and lengths. All `unsafe` of the crate is here.
//!
//! What the header asks of a caller holds by the types: a slice is valid for its length, and a `&mut` slice overlaps no other slice.

/// The answer as C has it: number 0, the count and the letter comparisons, which only the factorization counts, or a refusal's number, the
/// position and 0.
#[repr(C)]
#[derive(Clone, Copy, Debug, PartialEq, Eq)]
pub struct Answer {
    pub number: u32,
    pub value: u32,
    pub comparisons: u32,
}

/// A table store as C has it: own table `k` of group `g` is the 256 bytes from `((g - 1) * 3 + k) * 256` on, and its flag, 0 for unwritten,
/// stands at `(g - 1) * 3 + k`.
#[repr(C)]
#[derive(Clone, Copy, Debug, PartialEq, Eq)]
pub struct Store {
    pub tables: [u8; 1536],
    pub written: [u8; 6],
}

/// A store and the answer of the write that returns it.
#[repr(C)]
#[derive(Clone, Copy)]
pub struct StoreWritten {
    pub store: Store,
    pub answer: Answer,
}

/// The three numbers by which a call names a table of a store: where `built_in` is 0 the group's own, else a built-in one.
#[derive(Clone, Copy, Debug)]
pub struct TableName {
    pub group: u32,
    pub built_in: u32,
    pub number: u32,
}

pub mod c {
    use super::{Answer, Store, StoreWritten};

    extern "C" {
        pub fn lyndon_array_u8(text: *const u8, n: usize, order: u32, out: *mut u32, out_len: usize) -> Answer;
        pub fn lyndon_array_u32(text: *const u32, n: usize, order: u32, out: *mut u32, out_len: usize) -> Answer;
        pub fn lyndon_factorization(text: *const u8, n: usize, out: *mut u32, out_len: usize) -> Answer;
        pub fn lyndon_suffix_table(text: *const u8, n: usize, out: *mut u32, out_len: usize) -> Answer;
        pub fn lyndon_left_forest(text: *const u8, n: usize, first: *mut u32, first_len: usize, past: *mut u32, past_len: usize) -> Answer;
        pub fn lyndon_right_forest(
            array: *const u32,
            n: usize,
            first: *mut u32,
            first_len: usize,
            past: *mut u32,
            past_len: usize,
        ) -> Answer;
        pub fn lyndon_reconstruct(array: *const u32, n: usize, text: *mut u32, text_len: usize) -> Answer;
        pub fn lyndon_runs(text: *const u8, n: usize, work: *mut u32, work_len: usize, list: *mut u32, list_len: usize) -> Answer;
        pub fn lyndon_left_forest_ranked(
            text: *const u8,
            n: usize,
            order: u32,
            table: *const u8,
            table_len: usize,
            first: *mut u32,
            first_len: usize,
            past: *mut u32,
            past_len: usize,
        ) -> Answer;
        pub fn lyndon_runs_ranked(
            text: *const u8,
            n: usize,
            table: *const u8,
            table_len: usize,
            work: *mut u32,
            work_len: usize,
            list: *mut u32,
            list_len: usize,
        ) -> Answer;
        pub fn lyndon_compare_infinite(u: *const u8, u_len: usize, v: *const u8, v_len: usize) -> Answer;
        pub fn lyndon_prefix_permutation(word: *const u8, n: usize, out: *mut u32, out_len: usize) -> Answer;
        pub fn lyndon_read_fasta(input: *const u8, len: usize, letters: *mut u8, letters_len: usize) -> Answer;
        pub fn lyndon_store_new() -> Store;
        pub fn lyndon_store_write(store: Store, group: u32, number: u32, table: *const u8, table_len: usize) -> StoreWritten;
        pub fn lyndon_store_read(store: Store, group: u32, built_in: u32, number: u32, out: *mut u8, out_len: usize) -> Answer;
    }

    /// Declares the ranked calls that write one buffer: all have the same arguments.
    macro_rules! ranked {
        ($($name:ident),*) => {
            extern "C" {
                $(pub fn $name(
                    text: *const u8, n: usize, order: u32, table: *const u8, table_len: usize, out: *mut u32, out_len: usize,
                ) -> Answer;)*
            }
        };
    }
    ranked!(lyndon_array_ranked, lyndon_factorization_ranked, lyndon_suffix_table_ranked);
}

pub fn array_u8(text: &[u8], order: u32, out: &mut [u32]) -> Answer {
    unsafe { c::lyndon_array_u8(text.as_ptr(), text.len(), order, out.as_mut_ptr(), out.len()) }
}

pub fn array_u32(text: &[u32], order: u32, out: &mut [u32]) -> Answer {
    unsafe { c::lyndon_array_u32(text.as_ptr(), text.len(), order, out.as_mut_ptr(), out.len()) }
}

pub fn factorization(text: &[u8], out: &mut [u32]) -> Answer {
    unsafe { c::lyndon_factorization(text.as_ptr(), text.len(), out.as_mut_ptr(), out.len()) }
}

pub fn suffix_table(text: &[u8], out: &mut [u32]) -> Answer {
    unsafe { c::lyndon_suffix_table(text.as_ptr(), text.len(), out.as_mut_ptr(), out.len()) }
}

pub fn left_forest(text: &[u8], first: &mut [u32], past: &mut [u32]) -> Answer {
    unsafe { c::lyndon_left_forest(text.as_ptr(), text.len(), first.as_mut_ptr(), first.len(), past.as_mut_ptr(), past.len()) }
}

pub fn right_forest(array: &[u32], first: &mut [u32], past: &mut [u32]) -> Answer {
    unsafe { c::lyndon_right_forest(array.as_ptr(), array.len(), first.as_mut_ptr(), first.len(), past.as_mut_ptr(), past.len()) }
}

pub fn reconstruct(array: &[u32], text: &mut [u32]) -> Answer {
    unsafe { c::lyndon_reconstruct(array.as_ptr(), array.len(), text.as_mut_ptr(), text.len()) }
}

pub fn runs(text: &[u8], work: &mut [u32], list: &mut [u32]) -> Answer {
    unsafe { c::lyndon_runs(text.as_ptr(), text.len(), work.as_mut_ptr(), work.len(), list.as_mut_ptr(), list.len()) }
}

pub fn array_ranked(text: &[u8], order: u32, table: &[u8], out: &mut [u32]) -> Answer {
    unsafe { c::lyndon_array_ranked(text.as_ptr(), text.len(), order, table.as_ptr(), table.len(), out.as_mut_ptr(), out.len()) }
}

pub fn factorization_ranked(text: &[u8], order: u32, table: &[u8], out: &mut [u32]) -> Answer {
    unsafe { c::lyndon_factorization_ranked(text.as_ptr(), text.len(), order, table.as_ptr(), table.len(), out.as_mut_ptr(), out.len()) }
}

pub fn suffix_table_ranked(text: &[u8], order: u32, table: &[u8], out: &mut [u32]) -> Answer {
    unsafe { c::lyndon_suffix_table_ranked(text.as_ptr(), text.len(), order, table.as_ptr(), table.len(), out.as_mut_ptr(), out.len()) }
}

pub fn left_forest_ranked(text: &[u8], order: u32, table: &[u8], first: &mut [u32], past: &mut [u32]) -> Answer {
    unsafe {
        c::lyndon_left_forest_ranked(
            text.as_ptr(),
            text.len(),
            order,
            table.as_ptr(),
            table.len(),
            first.as_mut_ptr(),
            first.len(),
            past.as_mut_ptr(),
            past.len(),
        )
    }
}

pub fn runs_ranked(text: &[u8], table: &[u8], work: &mut [u32], list: &mut [u32]) -> Answer {
    unsafe {
        c::lyndon_runs_ranked(
            text.as_ptr(),
            text.len(),
            table.as_ptr(),
            table.len(),
            work.as_mut_ptr(),
            work.len(),
            list.as_mut_ptr(),
            list.len(),
        )
    }
}

pub fn compare_infinite(u: &[u8], v: &[u8]) -> Answer {
    unsafe { c::lyndon_compare_infinite(u.as_ptr(), u.len(), v.as_ptr(), v.len()) }
}

pub fn prefix_permutation(word: &[u8], out: &mut [u32]) -> Answer {
    unsafe { c::lyndon_prefix_permutation(word.as_ptr(), word.len(), out.as_mut_ptr(), out.len()) }
}

pub fn read_fasta(input: &[u8], letters: &mut [u8]) -> Answer {
    unsafe { c::lyndon_read_fasta(input.as_ptr(), input.len(), letters.as_mut_ptr(), letters.len()) }
}

pub fn store_new() -> Store {
    unsafe { c::lyndon_store_new() }
}

pub fn store_write(store: &Store, group: u32, number: u32, table: &[u8]) -> StoreWritten {
    unsafe { c::lyndon_store_write(*store, group, number, table.as_ptr(), table.len()) }
}

pub fn store_read(store: &Store, name: TableName, out: &mut [u8]) -> Answer {
    unsafe { c::lyndon_store_read(*store, name.group, name.built_in, name.number, out.as_mut_ptr(), out.len()) }
}

/// Declares and wraps the calls that use a table of a store: all have the same arguments up to their buffers.
macro_rules! store_uses {
    ($($name:ident: $call:ident($($buffer:ident),+);)*) => {
        $(pub fn $name(store: &Store, name: TableName, text: &[u8], $($buffer: &mut [u32]),+) -> Answer {
            extern "C" {
                fn $call(
                    store: Store, group: u32, built_in: u32, number: u32, text: *const u8, n: usize, $($buffer: *mut u32, _: usize),+
                ) -> Answer;
            }
            let TableName { group, built_in, number } = name;
            unsafe { $call(*store, group, built_in, number, text.as_ptr(), text.len(), $($buffer.as_mut_ptr(), $buffer.len()),+) }
        })*
    };
}
store_uses! {
    store_array: lyndon_store_array(out);
    store_factorization: lyndon_store_factorization(out);
    store_suffix_table: lyndon_store_suffix_table(out);
    store_left_forest: lyndon_store_left_forest(first, past);
    store_runs: lyndon_store_runs(work, list);
}
