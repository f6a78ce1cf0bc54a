//! Stands for bitcoin-internals: a short list on the stack, and arrays out of slices. Only what the text calls.

pub mod array_vec {
    /// At most `N` values; `lib.rs:116` fills it with a count's bytes.
    #[derive(Clone, Debug)]
    pub struct ArrayVec<T, const N: usize> {
        values: [T; N],
        length: usize,
    }

    impl<T: Copy + Default, const N: usize> ArrayVec<T, N> {
        pub fn from_slice(slice: &[T]) -> Self {
            let mut values = [T::default(); N];
            values[..slice.len()].copy_from_slice(slice);
            ArrayVec { values, length: slice.len() }
        }

        pub fn as_slice(&self) -> &[T] {
            &self.values[..self.length]
        }
    }
}

pub mod slice {
    /// As `witness.rs:264` and `pegin_witness.rs:505` call it.
    pub trait SliceExt {
        type Item;

        fn get_array<const N: usize>(&self, at: usize) -> Option<&[Self::Item; N]>;
        fn split_first_chunk<const N: usize>(&self) -> Option<(&[Self::Item; N], &[Self::Item])>;
    }

    impl<T> SliceExt for [T] {
        type Item = T;

        fn get_array<const N: usize>(&self, at: usize) -> Option<&[T; N]> {
            self.get(at..at.checked_add(N)?)?.try_into().ok()
        }

        fn split_first_chunk<const N: usize>(&self) -> Option<(&[T; N], &[T])> {
            Some((self.get(..N)?.try_into().ok()?, &self[N..]))
        }
    }
}
