//! How a call ends.

/// A message for standard error, and the exit status with it.
pub struct Fault {
    pub status: u8,
    pub message: String,
}

pub type End<T = ()> = Result<T, Fault>;

/// A refusal, or an answer that changed.
pub fn refused<T>(message: impl Into<String>) -> End<T> {
    Err(Fault {
        status: 1,
        message: message.into(),
    })
}

/// A file or a call that can't be used.
pub fn wrong<T>(message: impl Into<String>) -> End<T> {
    Err(Fault {
        status: 2,
        message: message.into(),
    })
}
