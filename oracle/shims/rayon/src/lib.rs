//! Stands in for `rayon`: the same calls on one thread, so that a run is repeatable and a timing is of one core.

pub mod prelude {
    /// `par_iter_mut`, the one call that the Rust makes.
    pub trait IntoParallelRefMutIterator {
        type Item;
        fn par_iter_mut(&mut self) -> std::slice::IterMut<'_, Self::Item>;
    }

    impl<T> IntoParallelRefMutIterator for [T] {
        type Item = T;

        #[inline(always)]
        fn par_iter_mut(&mut self) -> std::slice::IterMut<'_, T> {
            self.iter_mut()
        }
    }
}
