//! Calls of numbers and slices that Rust has from 1.88 and 1.91 on, for compilers from 1.85 on. Where a type has the call itself,
//! that one is taken.

/// `u64::carrying_mul`: the two words of `self * factor + carry`, the lower one first.
pub trait Product: Sized {
    fn carrying_mul(self, factor: Self, carry: Self) -> (Self, Self);
}

impl Product for u64 {
    #[inline(always)]
    fn carrying_mul(self, factor: u64, carry: u64) -> (u64, u64) {
        let product = u128::from(self) * u128::from(factor) + u128::from(carry);
        (product as u64, (product >> 64) as u64)
    }
}

/// `[T]::as_chunks`: the whole pieces of `N` items from the front on, and the items behind them.
pub trait Chunks<T> {
    fn as_chunks<const N: usize>(&self) -> (Pieces<'_, T, N>, &[T]);
}

impl<T> Chunks<T> for [T] {
    #[inline(always)]
    fn as_chunks<const N: usize>(&self) -> (Pieces<'_, T, N>, &[T]) {
        let whole = self.len() - self.len() % N;
        (Pieces(&self[..whole]), &self[whole..])
    }
}

/// Whole pieces of `N` items.
pub struct Pieces<'a, T, const N: usize>(&'a [T]);

impl<'a, T, const N: usize> Pieces<'a, T, N> {
    #[inline(always)]
    pub fn iter(self) -> impl Iterator<Item = &'a [T; N]> {
        let pieces = self.0.chunks_exact(N);
        pieces.map(|piece| piece.first_chunk().expect("a piece has N items"))
    }
}
