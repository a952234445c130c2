//! The calculations with matrices: results that can be told by hand, what holds of every result, and sizes that do not match.

use jifrosk::{cholesky, forward_rows, inverse_diagonal, inverse_triangular, sandwich, Refusal};

/// What stands where nothing may be written.
const MARK: f64 = -1234.5;

fn bits(values: &[f64]) -> Vec<u64> {
    values.iter().map(|value| value.to_bits()).collect()
}

/// A matrix of size n that is positive definite: n on the diagonal, and 1 / (i + j + 1) beside it.
fn definite(n: usize) -> Vec<f64> {
    let entry = |i: usize, j: usize| 1.0 / (i + j + 1) as f64 + if i == j { n as f64 } else { 0.0 };
    (0..n * n).map(|k| entry(k / n, k % n)).collect()
}

#[test]
fn a_factor_of_whole_numbers() {
    let mut l = [MARK; 4];
    // right of the diagonal nothing is read
    assert_eq!(cholesky(2, &[4.0, f64::NAN, 6.0, 25.0], &mut l), Ok(()));
    assert_eq!(bits(&l), bits(&[2.0, 0.0, 3.0, 4.0]));
    let mut m = [MARK; 4];
    assert_eq!(inverse_triangular(2, &l, &mut m), Ok(()));
    assert_eq!(m, [0.390_625, -0.093_75, -0.093_75, 0.0625]);
    let mut r = [MARK; 6];
    assert_eq!(forward_rows(2, 3, &l, &[2.0, 4.0, 0.0, 7.0, 10.0, 8.0], &mut r), Ok(()));
    assert_eq!(r, [1.0, 2.0, 0.0, 1.0, 1.0, 2.0]);
    let mut s = [MARK; 4];
    assert_eq!(
        sandwich(2, &[1.0, 2.0, 2.0, 3.0], &[1.0, 0.0, 0.0, 2.0], &mut s),
        Ok(())
    );
    assert_eq!(s, [9.0, 14.0, 14.0, 22.0]);
}

#[test]
fn results_are_symmetric_and_have_one_diagonal() {
    for n in 0..=32 {
        let a = definite(n);
        let [mut l, mut m, mut s] = [(); 3].map(|()| vec![MARK; n * n]);
        assert_eq!(cholesky(n, &a, &mut l), Ok(()));
        assert_eq!(inverse_triangular(n, &l, &mut m), Ok(()));
        assert_eq!(sandwich(n, &m, &a, &mut s), Ok(()));
        let mut d = vec![MARK; n];
        assert_eq!(inverse_diagonal(n, &l, &mut d), Ok(()));
        for i in 0..n {
            assert_eq!(d[i].to_bits(), m[i * n + i].to_bits());
            for j in 0..n {
                assert_eq!(m[i * n + j].to_bits(), m[j * n + i].to_bits());
                assert_eq!(s[i * n + j].to_bits(), s[j * n + i].to_bits());
                assert!(j <= i || l[i * n + j].to_bits() == 0);
            }
        }
    }
}

#[test]
fn a_factor_that_equals_zero_is_passed_over() {
    let l = [1.0, 0.0, -0.0, 1.0];
    let mut r = [MARK; 2];
    assert_eq!(forward_rows(2, 1, &l, &[f64::INFINITY, 5.0], &mut r), Ok(()));
    assert_eq!(r, [f64::INFINITY, 5.0]);
    assert_eq!(forward_rows(2, 0, &l, &[], &mut []), Ok(()));
}

#[test]
fn a_refused_pivot_leaves_the_output() {
    for pivot in [0.0, -0.0, -1.0, f64::NAN] {
        let mut l = [MARK; 4];
        assert_eq!(cholesky(2, &[4.0, 0.0, 0.0, pivot], &mut l), Err(Refusal::Singular));
        assert_eq!(l, [MARK; 4]);
    }
}

#[test]
fn sizes_that_do_not_match_are_turned_away() {
    let zeros = [0.0; 1200];
    // sizes whose square wraps among them
    for n in [1, 3, 33, 34, 1 << 32, usize::MAX] {
        for length in [0, 1, 9, 33, 1_024, 1_089, 1_200]
            .into_iter()
            .filter(|length| n > 32 || *length != n * n)
        {
            let mut out = vec![MARK; length];
            let slice = &zeros[..length];
            assert_eq!(sandwich(n, slice, slice, &mut out), Err(Refusal::WrongSize));
            assert_eq!(inverse_triangular(n, slice, &mut out), Err(Refusal::WrongSize));
            assert_eq!(inverse_diagonal(n, slice, &mut out), Err(Refusal::WrongSize));
            assert_eq!(cholesky(n, slice, &mut out), Err(Refusal::WrongSize));
            assert_eq!(forward_rows(n, n, slice, slice, &mut out), Err(Refusal::WrongSize));
            assert_eq!(
                forward_rows(1, n, &zeros[..1], slice, &mut out).is_ok(),
                n == length && n <= 32
            );
            assert!(n == length || out.iter().all(|value| *value == MARK));
        }
    }
    let mut out = [MARK; 9];
    assert_eq!(inverse_diagonal(3, &zeros[..9], &mut out), Err(Refusal::WrongSize));
    assert_eq!(sandwich(3, &zeros[..9], &zeros[..8], &mut out), Err(Refusal::WrongSize));
    assert_eq!(
        forward_rows(3, 3, &zeros[..9], &zeros[..9], &mut out[..6]),
        Err(Refusal::WrongSize)
    );
    assert_eq!(
        forward_rows(3, 33, &zeros[..9], &zeros[..99], &mut [MARK; 99]),
        Err(Refusal::WrongSize)
    );
    assert_eq!(out, [MARK; 9]);
}
