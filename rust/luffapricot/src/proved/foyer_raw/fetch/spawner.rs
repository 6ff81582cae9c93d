//! What runs the tasks of fetches.

// Written by rust/erase/erase.py from crates/foyer_raw/src/fetch/spawner.rt: change that.
#[allow(unused_imports)]
use crate::rattle_std::prelude::*;
use crate::proved::foyer_policy::Result;
use crate::rattle_std::futures::Future;
use crate::rattle_std::futures::future::{Spawned, Task};
use crate::rattle_std::futures::task::{Context, Poll};
use crate::rattle_std::alloc::Global;

/// Takes tasks and has them polled.
pub trait Spawner<X: Future<Output = ()>> {
    /// Makes room for a task.
    ///
    /// # Errors
    /// F7 if memory runs out.
    fn reserve(&mut self) -> Result<()>;

    /// Takes a task. There has to be room, and the task has to be one that may be polled.
    fn spawn(&mut self, task: X);
}

/// Tasks in a list, which the caller polls by `poll_all`.
pub struct ListSpawner<X: Future<Output = ()>> {
    tasks: Vec<Spawned<X>>,
}

impl<X: Future<Output = ()>> ListSpawner<X> {
    /// Creates an empty list.
    #[inline]
    pub fn new(alloc: Global) -> Self {
        ListSpawner { tasks: Vec::new(alloc) }
    }

    /// Polls each task once, drops those that have ended, and returns how many remain.
    ///
    /// Never call it from a listener, which the tasks may call.
    #[inline]
    pub fn poll_all(&mut self, cx: &mut Context<'_>) -> usize {
        let mut place = 0;
        while place < self.tasks.len() {
            match self.tasks[place].poll_task(cx) {
                Poll::Ready(()) => drop(self.tasks.remove(place)),
                Poll::Pending => place += 1,
            }
        }
        self.tasks.len()
    }
}

impl<X: Future<Output = ()>> Spawner<X> for ListSpawner<X> {
    #[inline]
    fn reserve(&mut self) -> Result<()> {
        self.tasks.reserve(1)?;
        Ok(())
    }

    #[inline]
    fn spawn(&mut self, task: X) {
        if self.tasks.push(Spawned::new(task)).is_err() {
            crate::rattle_std::macros::unreachable!()
        }
    }
}

/// A future of the end of all tasks of a list. Each poll polls all tasks that have not ended.
pub struct AllTasks<X: Future<Output = ()>> {
    tasks: ListSpawner<X>,
}

impl<X: Future<Output = ()>> AllTasks<X> {
    /// Returns a future that is ready once each of these tasks has ended.
    #[inline]
    pub fn new(tasks: ListSpawner<X>) -> Self {
        AllTasks { tasks }
    }
}

impl<X: Future<Output = ()>> Future for AllTasks<X> {
    type Output = ();

    /// Polls each task that has not ended.
    #[inline]
    fn poll(&mut self, cx: &mut Context<'_>) -> Poll<()> {
        if self.tasks.poll_all(cx) > 0 {
            return Poll::Pending;
        }
        Poll::Ready(())
    }
}
