//! The one error that saving history can meet.

#[derive(Debug)]
pub(crate) struct Error(pub(crate) std::io::Error);

impl From<std::io::Error> for Error {
    fn from(error: std::io::Error) -> Error {
        Error(error)
    }
}
