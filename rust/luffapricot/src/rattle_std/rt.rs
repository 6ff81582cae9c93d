//! The handles by which Rattle's programs reach the world. In Rust they carry nothing.

use super::alloc::Global;

/// The runtime.
#[derive(Clone, Copy, Debug, Default)]
pub struct HostRuntime;

impl HostRuntime {
    /// Returns the process's allocator.
    pub fn alloc(&self) -> Global {
        Global
    }
}

/// What has an allocator.
pub trait Alloc {
    /// The allocator's type.
    type A;

    /// Returns the allocator.
    fn alloc(&self) -> Self::A;
}

impl Alloc for HostRuntime {
    type A = Global;

    fn alloc(&self) -> Global {
        Global
    }
}

/// What has the process's allocator.
pub trait AllocGlobal: Alloc<A = Global> {}
impl<T: Alloc<A = Global>> AllocGlobal for T {}
