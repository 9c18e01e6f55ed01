//! Lists and texts that live until the process ends.

/// Bump arena whose chunks live until the process ends.
pub struct Arena<T: Copy + 'static> {
    chunk: Vec<T>,
    next: usize,
}

impl<T: Copy + 'static> Arena<T> {
    pub fn new() -> Self {
        Arena { chunk: Vec::new(), next: 256 }
    }
    pub fn put(&mut self, items: &[T]) -> &'static [T] {
        if items.is_empty() {
            return &[];
        }
        if self.chunk.capacity() - self.chunk.len() < items.len() {
            let size = self.next.max(items.len());
            self.next = (self.next * 2).min(1 << 16);
            std::mem::forget(std::mem::replace(&mut self.chunk, Vec::with_capacity(size)));
        }
        let start = self.chunk.len();
        self.chunk.extend_from_slice(items);
        // SAFETY: a chunk is never grown past its capacity, moved or freed.
        unsafe { std::slice::from_raw_parts(self.chunk.as_ptr().add(start), items.len()) }
    }
}

impl<T: Copy + 'static> Drop for Arena<T> {
    fn drop(&mut self) {
        std::mem::forget(std::mem::take(&mut self.chunk));
    }
}

pub fn leak(s: String) -> &'static str {
    Box::leak(s.into_boxed_str())
}
