//! A stand-in for the crate `cfg_if`: the first branch whose condition holds.
#![no_std]

#[macro_export]
macro_rules! cfg_if {
    (if #[cfg($c:meta)] { $($t:tt)* }) => {
        $crate::cfg_if! { @branch ($c) { $($t)* } }
    };
    (if #[cfg($c:meta)] { $($t:tt)* } else { $($e:tt)* }) => {
        $crate::cfg_if! { @branch ($c) { $($t)* } }
        $crate::cfg_if! { @branch (not($c)) { $($e)* } }
    };
    (if #[cfg($c:meta)] { $($t:tt)* } else if #[cfg($d:meta)] { $($u:tt)* } else { $($e:tt)* }) => {
        $crate::cfg_if! { @branch ($c) { $($t)* } }
        $crate::cfg_if! { @branch (all(not($c), $d)) { $($u)* } }
        $crate::cfg_if! { @branch (all(not($c), not($d))) { $($e)* } }
    };
    (@branch ($c:meta) {}) => {};
    (@branch ($c:meta) { $($item:item)* }) => { $( #[cfg($c)] $item )* };
}
