pub use noop_derive::GetSize;

pub trait GetSize {
    fn get_heap_size(&self) -> usize {
        0
    }
}
