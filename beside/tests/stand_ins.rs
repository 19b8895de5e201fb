//! The stand-ins that the real scheduler computes with, against the plain way to do the same.

use vortex_layout::{ArrayRef, Mask, SmallVec};

/// Numbers below `below`, always the same ones.
fn draws(below: usize) -> impl Iterator<Item = usize> {
    let mut state = 1u32;
    std::iter::repeat_with(move || {
        state = state.wrapping_mul(1_664_525).wrapping_add(1_013_904_223);
        (state >> 16) as usize % below
    })
}

#[test]
fn a_small_vec_is_a_vec() {
    let mut small: SmallVec<[usize; 2]> = SmallVec::new();
    let mut plain = Vec::new();
    for (draw, value) in draws(10).zip(0..).take(2000) {
        match draw {
            0..=4 => {
                small.push(value);
                plain.push(value);
            }
            5..=7 => assert_eq!(small.pop(), plain.pop()),
            8 if !plain.is_empty() => {
                assert_eq!(small.swap_remove(value % plain.len()), plain.swap_remove(value % plain.len()))
            }
            _ => {
                small.retain(|item| *item % 3 != 0);
                plain.retain(|item| *item % 3 != 0);
            }
        }
        assert_eq!(small[..], plain[..]);
        assert_eq!(small.clone().into_iter().collect::<Vec<_>>(), plain);
    }
}

#[test]
fn a_small_vec_keeps_what_fits_without_spilling() {
    for count in 0..5 {
        let mut small: SmallVec<[usize; 2]> = SmallVec::with_capacity(count);
        small.extend(0..count);
        small.retain(|item| *item != 0);
        assert_eq!(small[..], (0..count).filter(|item| *item != 0).collect::<Vec<_>>()[..]);
    }
}

#[test]
fn a_slice_of_a_mask_keeps_the_same_rows() {
    let mask = Mask::from_runs(12, [1..3, 4..5, 8..12]);
    let kept = |mask: &Mask| mask.runs().iter().cloned().flatten().collect::<Vec<_>>();
    for start in 0..=12 {
        for end in start..=12 {
            let slice = mask.slice(start..end);
            let rows: Vec<usize> =
                kept(&mask).into_iter().filter(|row| (start..end).contains(row)).map(|row| row - start).collect();
            assert_eq!(kept(&slice), rows);
            assert_eq!(slice.len(), end - start);
            assert_eq!(slice.all_false(), rows.is_empty());
            assert_eq!(slice.all_true(), rows.len() == end - start);
        }
    }
}

#[test]
fn a_slice_of_an_array_starts_later() {
    let slice = ArrayRef::segment(7, 10).slice(3..8).and_then(|array| array.slice(2..4)).expect("rows that are there");
    assert_eq!((slice.len(), slice.columns()[0].segment, slice.columns()[0].first), (2, 7, 5));
    assert!(slice.slice(1..3).is_err());
}
