pub use noop_derive::{SchemaRead, SchemaWrite};

pub mod config {
    pub trait Config {}
}

pub mod io {
    pub trait Reader {}
    pub trait Writer {}
}

stub_error::stub_errors!(ReadError, WriteError);

pub type ReadResult<T> = Result<T, ReadError>;
pub type WriteResult<T> = Result<T, WriteError>;
