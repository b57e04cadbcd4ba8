//! Tracing and statistics off, and the entity newtypes.

macro_rules! trace {
    ($($arg:tt)*) => {
        if false {
            let _ = format_args!($($arg)*);
        }
    };
}

macro_rules! trace_enabled {
    () => {
        false
    };
}

macro_rules! stat {
    ($stats:expr, $name:ident $(, $n:expr)?) => {};
}

macro_rules! entity_def {
    ($($(#[$attr:meta])* $vis:vis entity $name:ident($int:ident, $prefix:literal);)*) => {$(
        $(#[$attr])*
        #[derive(Clone, Copy, PartialEq, Eq, PartialOrd, Ord, Hash)]
        $vis struct $name($int);

        impl $name {
            #[inline]
            $vis fn new(index: usize) -> Self {
                Self(index.try_into().unwrap())
            }

            #[inline]
            $vis fn index(self) -> usize {
                self.0 as usize
            }
        }

        impl $crate::entity::EntityRef for $name {
            fn new(index: usize) -> Self {
                Self::new(index)
            }

            fn index(self) -> usize {
                self.index()
            }
        }

        impl $crate::entity::packed_option::ReservedValue for $name {
            fn reserved_value() -> Self {
                Self($int::MAX)
            }

            fn is_reserved_value(&self) -> bool {
                self.0 == $int::MAX
            }
        }

        impl core::fmt::Display for $name {
            fn fmt(&self, f: &mut core::fmt::Formatter<'_>) -> core::fmt::Result {
                write!(f, "{}{}", $prefix, self.0)
            }
        }

        impl core::fmt::Debug for $name {
            fn fmt(&self, f: &mut core::fmt::Formatter<'_>) -> core::fmt::Result {
                core::fmt::Display::fmt(self, f)
            }
        }
    )*};
}
