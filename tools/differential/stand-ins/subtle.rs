//! A stand-in for the crate `subtle`: the names that the Rust text asks for, by plain selection.
#![no_std]

use core::ops::{BitAnd, BitOr, Neg, Not};

/// A truth value, 0 or 1.
#[derive(Copy, Clone, Debug)]
pub struct Choice(u8);

impl Choice {
    pub fn unwrap_u8(&self) -> u8 {
        self.0
    }
}

impl From<u8> for Choice {
    fn from(bit: u8) -> Choice {
        assert!(bit <= 1);
        Choice(bit)
    }
}

impl From<Choice> for bool {
    fn from(choice: Choice) -> bool {
        choice.0 == 1
    }
}

impl BitAnd for Choice {
    type Output = Choice;
    fn bitand(self, other: Choice) -> Choice {
        Choice(self.0 & other.0)
    }
}

impl BitOr for Choice {
    type Output = Choice;
    fn bitor(self, other: Choice) -> Choice {
        Choice(self.0 | other.0)
    }
}

impl Not for Choice {
    type Output = Choice;
    fn not(self) -> Choice {
        Choice(1 - self.0)
    }
}

/// Equality as a choice.
pub trait ConstantTimeEq {
    fn ct_eq(&self, other: &Self) -> Choice;
}

/// One of two by a choice: the second where it is 1.
pub trait ConditionallySelectable: Copy {
    fn conditional_select(a: &Self, b: &Self, choice: Choice) -> Self;
    fn conditional_assign(&mut self, other: &Self, choice: Choice) {
        *self = Self::conditional_select(self, other, choice);
    }
    fn conditional_swap(a: &mut Self, b: &mut Self, choice: Choice) {
        let (x, y) = (*a, *b);
        a.conditional_assign(&y, choice);
        b.conditional_assign(&x, choice);
    }
}

/// Negation where a choice is 1.
pub trait ConditionallyNegatable {
    fn conditional_negate(&mut self, choice: Choice);
}

impl<T> ConditionallyNegatable for T
where
    T: ConditionallySelectable,
    for<'a> &'a T: Neg<Output = T>,
{
    fn conditional_negate(&mut self, choice: Choice) {
        let negated = -&*self;
        self.conditional_assign(&negated, choice);
    }
}

macro_rules! plain_numbers {
    ($($t:ty)*) => { $(
        impl ConstantTimeEq for $t {
            fn ct_eq(&self, other: &$t) -> Choice {
                Choice((self == other) as u8)
            }
        }
        impl ConditionallySelectable for $t {
            fn conditional_select(a: &$t, b: &$t, choice: Choice) -> $t {
                if choice.0 == 1 { *b } else { *a }
            }
        }
    )* };
}

plain_numbers!(u8 u16 u32 u64);

impl<T: ConstantTimeEq> ConstantTimeEq for [T] {
    fn ct_eq(&self, other: &[T]) -> Choice {
        let same = self.len() == other.len();
        let all = self.iter().zip(other).all(|(a, b)| a.ct_eq(b).into());
        Choice((same && all) as u8)
    }
}

impl<T: ConstantTimeEq, const N: usize> ConstantTimeEq for [T; N] {
    fn ct_eq(&self, other: &[T; N]) -> Choice {
        self[..].ct_eq(&other[..])
    }
}

impl<T: ConditionallySelectable, const N: usize> ConditionallySelectable for [T; N] {
    fn conditional_select(a: &[T; N], b: &[T; N], choice: Choice) -> [T; N] {
        core::array::from_fn(|i| T::conditional_select(&a[i], &b[i], choice))
    }
}

/// A value that is there where its choice is 1.
#[derive(Copy, Clone, Debug)]
pub struct CtOption<T> {
    value: T,
    there: Choice,
}

impl<T> CtOption<T> {
    pub fn new(value: T, there: Choice) -> CtOption<T> {
        CtOption { value, there }
    }
}

impl<T> From<CtOption<T>> for Option<T> {
    fn from(option: CtOption<T>) -> Option<T> {
        if option.there.0 == 1 { Some(option.value) } else { None }
    }
}
