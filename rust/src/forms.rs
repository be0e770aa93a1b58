//! Functions and implementations that differ in an expression, a row for each.

/// Functions that are inlined always.
macro_rules! inlined {
    ($($(#[$mark:meta])* $vis:vis fn $name:ident $given:tt -> $result:ty $body:block)*) => {
        $($(#[$mark])* #[inline(always)] $vis fn $name $given -> $result $body)*
    };
}

/// Operators of a type. A row that begins with `@` is of a single one.
macro_rules! operators {
    (@ [$($generic:tt)*] [$($op:tt)*] $ty:ty, $function:ident $a:ident ($($b:ident: $other:ty)?) $body:block) => {
        impl<$($generic)*> $($op)* for $ty {
            type Output = Self;
            #[inline(always)]
            fn $function(self $(, $b: $other)?) -> Self {
                let $a = self;
                $body
            }
        }
    };
    ($generic:tt $ty:ty: $($op:ident $(<$by:ty>)? $function:ident($a:ident $(, $b:ident: $other:ty)?) $body:block)*) => {
        $(operators! { @ $generic [$op $(<$by>)?] $ty, $function $a ($($b: $other)?) $body })*
    };
}

/// Conversions of a type into another.
macro_rules! conversions {
    ($($from:ty => $to:ty: |$it:ident| $value:expr;)*) => { $(impl From<$from> for $to {
        #[inline]
        fn from($it: $from) -> Self {
            $value
        }
    })* };
}

/// What is printed of a type, as the same trait prints a value.
macro_rules! shown {
    ($($shown:ident for $ty:ty: |$it:ident| $value:expr;)*) => { $(impl $shown for $ty {
        fn fmt(&self, f: &mut core::fmt::Formatter<'_>) -> core::fmt::Result {
            let $it = self;
            $shown::fmt(&$value, f)
        }
    })* };
}
