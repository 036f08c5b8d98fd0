//! Stands in for the part of faer that the source names. Nothing is factorized here.

use std::ops::{Index, IndexMut};

/// A dense matrix by columns.
#[derive(Clone, Debug)]
pub struct Mat<T> {
    rows: usize,
    cols: usize,
    data: Vec<T>,
}

impl Mat<f64> {
    pub fn zeros(rows: usize, cols: usize) -> Self {
        Mat { rows, cols, data: vec![0.0; rows * cols] }
    }

    /// Added: the matrix that a list holds by columns.
    pub fn from_columns(rows: usize, cols: usize, data: Vec<f64>) -> Self {
        assert_eq!(data.len(), rows * cols);
        Mat { rows, cols, data }
    }

    /// Added: the list by columns.
    pub fn into_columns(self) -> Vec<f64> {
        self.data
    }

    pub fn nrows(&self) -> usize {
        self.rows
    }

    pub fn ncols(&self) -> usize {
        self.cols
    }

    pub fn as_mut(&mut self) -> &mut Self {
        self
    }
}

impl<T> Index<(usize, usize)> for Mat<T> {
    type Output = T;

    #[inline(always)]
    fn index(&self, (r, c): (usize, usize)) -> &T {
        assert!(r < self.rows && c < self.cols);
        // The list has rows * cols elements.
        unsafe { self.data.get_unchecked(c * self.rows + r) }
    }
}

impl<T> IndexMut<(usize, usize)> for Mat<T> {
    #[inline(always)]
    fn index_mut(&mut self, (r, c): (usize, usize)) -> &mut T {
        assert!(r < self.rows && c < self.cols);
        // The list has rows * cols elements.
        unsafe { self.data.get_unchecked_mut(c * self.rows + r) }
    }
}

pub mod sparse {
    use super::linalg::solvers::Lu;

    #[derive(Clone, Copy, Debug)]
    pub struct Triplet<R, C, T> {
        pub row: R,
        pub col: C,
        pub val: T,
    }

    impl<R, C, T> Triplet<R, C, T> {
        pub fn new(row: R, col: C, val: T) -> Self {
            Triplet { row, col, val }
        }
    }

    pub struct SparseColMat<I, T>(std::marker::PhantomData<(I, T)>);

    impl SparseColMat<usize, f64> {
        pub fn try_new_from_triplets(
            _: usize,
            _: usize,
            _: &[Triplet<usize, usize, f64>],
        ) -> Result<Self, &'static str> {
            Err("no factorization here")
        }

        pub fn sp_lu(&self) -> Result<Lu, &'static str> {
            Err("no factorization here")
        }
    }
}

pub mod linalg {
    pub mod solvers {
        use crate::Mat;

        /// Never made.
        pub struct Lu(());

        pub trait Solve {
            fn solve_in_place(&self, x: &mut Mat<f64>);
        }

        impl Solve for Lu {
            fn solve_in_place(&self, _: &mut Mat<f64>) {
                unreachable!("no factorization here")
            }
        }
    }
}
