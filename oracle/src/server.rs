//! What the original's text names of its `server` module.

pub type ReplicaId = u8;

/// Stand-in: what is asked of the log.
pub enum LogAction<E> {
    Append {
        #[allow(dead_code)]
        entry: E,
        #[allow(dead_code)]
        sync: bool,
    },
}
