//! Errors: a message.

use std::fmt;
use std::num::TryFromIntError;

pub type VortexResult<T> = Result<T, VortexError>;

#[derive(Debug)]
pub struct VortexError(Box<str>);

impl VortexError {
    #[cold]
    pub fn new(message: String) -> Self {
        Self(message.into())
    }

    pub fn message(&self) -> &str {
        &self.0
    }
}

impl fmt::Display for VortexError {
    fn fmt(&self, formatter: &mut fmt::Formatter<'_>) -> fmt::Result {
        formatter.write_str(&self.0)
    }
}

impl From<TryFromIntError> for VortexError {
    fn from(error: TryFromIntError) -> Self {
        Self::new(error.to_string())
    }
}

pub trait VortexExpect<T> {
    fn vortex_expect(self, message: &'static str) -> T;
}

impl<T> VortexExpect<T> for Option<T> {
    fn vortex_expect(self, message: &'static str) -> T {
        self.expect(message)
    }
}

#[macro_export]
macro_rules! vortex_err {
    ($($message:tt)*) => {
        $crate::VortexError::new(format!($($message)*))
    };
}

#[macro_export]
macro_rules! vortex_bail {
    ($($message:tt)*) => {
        return Err($crate::vortex_err!($($message)*))
    };
}

#[macro_export]
macro_rules! vortex_ensure {
    ($condition:expr, $($message:tt)*) => {
        if !$condition {
            $crate::vortex_bail!($($message)*);
        }
    };
}
