//! The crate's operator macros, written anew: an operator between references gives those that take values.

macro_rules! variants {
    ($trait:ident, $method:ident, $lhs:ty, $rhs:ty, $output:ty) => {
        impl<'b> core::ops::$trait<&'b $rhs> for $lhs {
            type Output = $output;
            fn $method(self, rhs: &'b $rhs) -> $output {
                core::ops::$trait::$method(&self, rhs)
            }
        }
        impl<'a> core::ops::$trait<$rhs> for &'a $lhs {
            type Output = $output;
            fn $method(self, rhs: $rhs) -> $output {
                core::ops::$trait::$method(self, &rhs)
            }
        }
        impl core::ops::$trait<$rhs> for $lhs {
            type Output = $output;
            fn $method(self, rhs: $rhs) -> $output {
                core::ops::$trait::$method(&self, &rhs)
            }
        }
    };
}

macro_rules! assign_variants {
    ($trait:ident, $method:ident, $lhs:ty, $rhs:ty) => {
        impl core::ops::$trait<$rhs> for $lhs {
            fn $method(&mut self, rhs: $rhs) {
                core::ops::$trait::$method(self, &rhs)
            }
        }
    };
}

macro_rules! define_add_variants {
    (LHS = $l:ty, RHS = $r:ty, Output = $o:ty $(,)?) => { variants!(Add, add, $l, $r, $o); };
}

macro_rules! define_sub_variants {
    (LHS = $l:ty, RHS = $r:ty, Output = $o:ty $(,)?) => { variants!(Sub, sub, $l, $r, $o); };
}

macro_rules! define_mul_variants {
    (LHS = $l:ty, RHS = $r:ty, Output = $o:ty $(,)?) => { variants!(Mul, mul, $l, $r, $o); };
}

macro_rules! define_add_assign_variants {
    (LHS = $l:ty, RHS = $r:ty $(,)?) => { assign_variants!(AddAssign, add_assign, $l, $r); };
}

macro_rules! define_sub_assign_variants {
    (LHS = $l:ty, RHS = $r:ty $(,)?) => { assign_variants!(SubAssign, sub_assign, $l, $r); };
}

macro_rules! define_mul_assign_variants {
    (LHS = $l:ty, RHS = $r:ty $(,)?) => { assign_variants!(MulAssign, mul_assign, $l, $r); };
}
