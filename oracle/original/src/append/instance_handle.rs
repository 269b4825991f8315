/// Sets and gets the counter of an allocator.
pub mod access {
    use super::*;

    pub fn starting_at(next: u64) -> InstanceHandleAllocator {
        InstanceHandleAllocator { next: AtomicU64::new(next) }
    }

    pub fn next(allocator: &InstanceHandleAllocator) -> u64 {
        allocator.next.load(Ordering::Relaxed)
    }
}
