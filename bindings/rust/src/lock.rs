//! A lock. Without `std` there is none, and what is locked can't be shared by threads.

/// What one thread at a time works with.
#[derive(Debug)]
#[cfg(feature = "std")]
pub(crate) struct Lock<T>(std::sync::Mutex<T>);

/// What one call at a time works with.
#[derive(Debug)]
#[cfg(not(feature = "std"))]
pub(crate) struct Lock<T>(core::cell::RefCell<T>);

impl<T> Lock<T> {
    #[cfg(feature = "std")]
    pub(crate) fn new(value: T) -> Self {
        Self(std::sync::Mutex::new(value))
    }

    #[cfg(not(feature = "std"))]
    pub(crate) fn new(value: T) -> Self {
        Self(core::cell::RefCell::new(value))
    }

    #[cfg(feature = "std")]
    pub(crate) fn with<R>(&self, work: impl FnOnce(&mut T) -> R) -> R {
        // A panic leaves nothing half done here.
        work(&mut self.0.lock().unwrap_or_else(std::sync::PoisonError::into_inner))
    }

    #[cfg(not(feature = "std"))]
    pub(crate) fn with<R>(&self, work: impl FnOnce(&mut T) -> R) -> R {
        work(&mut self.0.borrow_mut())
    }
}
