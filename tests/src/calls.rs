//! Which of the six functions of the C interface are called: the archive's, or
//! wrong ones in their place, to see that the comparing finds them out.

#[path = "../../include/linkplan.rs"]
pub mod linkplan;

#[derive(Clone, Copy)]
pub enum Calls {
    Archive,
    Wrong,
}

/// Calls a function of the C interface, the archive's or the wrong one.
macro_rules! call {
    ($calls:expr, $name:ident($($argument:expr),* $(,)?)) => {
        match $calls {
            $crate::calls::Calls::Archive => $crate::calls::linkplan::$name($($argument),*),
            $crate::calls::Calls::Wrong => $crate::wrong::$name($($argument),*),
        }
    };
}
pub(crate) use call;
