//! The `Debug` and the equality of types that hide a handle.

/// Implements `Debug` for a struct. It prints the results of these methods, and dots for the rest.
macro_rules! debug_by {
    ($name:ident $(<$of:ident>)?: $($method:ident),+) => {
        impl $(<$of: std::fmt::Debug>)? std::fmt::Debug for $name $(<$of>)? {
            fn fmt(&self, f: &mut std::fmt::Formatter<'_>) -> std::fmt::Result {
                f.debug_struct(stringify!($name))
                    $(.field(stringify!($method), &self.$method()))+
                    .finish_non_exhaustive()
            }
        }
    };
}

/// Implements equality by the results of these methods. The hash is that of the first one.
macro_rules! equal_by {
    ($name:ident: $method:ident $(, $other:ident)?) => {
        impl PartialEq for $name {
            fn eq(&self, other: &$name) -> bool {
                self.$method() == other.$method() $(&& self.$other() == other.$other())?
            }
        }

        impl Eq for $name {}

        impl std::hash::Hash for $name {
            fn hash<H: std::hash::Hasher>(&self, state: &mut H) {
                self.$method().hash(state);
            }
        }
    };
}

pub(crate) use {debug_by, equal_by};
