//! The ways that a call can take, each with the name under which it is counted.

macro_rules! ways {
    ($kind:ident, $names:ident: $($way:ident $name:literal,)*) => {
        #[derive(Clone, Copy)]
        pub enum $kind { $($way,)* }
        pub const $names: &[&str] = &[$($name,)*];
    };
}
pub(crate) use ways;
