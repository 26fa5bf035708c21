//! The names of rayon that hybit's sources use, run serially. The comparison never asks hybit's parallel calls; they only have
//! to compile.

pub fn current_num_threads() -> usize {
    1
}

pub mod prelude {
    use std::slice::{ChunksMut, IterMut};

    pub trait ParallelSliceMut<T> {
        fn par_iter_mut(&mut self) -> IterMut<'_, T>;
        fn par_chunks_mut(&mut self, size: usize) -> ChunksMut<'_, T>;
    }

    impl<T> ParallelSliceMut<T> for [T] {
        fn par_iter_mut(&mut self) -> IterMut<'_, T> {
            self.iter_mut()
        }

        fn par_chunks_mut(&mut self, size: usize) -> ChunksMut<'_, T> {
            self.chunks_mut(size)
        }
    }
}
