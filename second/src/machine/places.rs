//! Which places of a table are taken. The machine needs none to work; it remembers them so that it
//! can say its state in the lent layout.

#[derive(Clone)]
pub struct Places {
    taken: Vec<bool>,
}

impl Places {
    /// A table of so many free places.
    pub fn all_free(count: usize) -> Places {
        Places { taken: vec![false; count] }
    }

    /// The lowest free place.
    pub fn lowest_free(&self) -> Option<usize> {
        self.taken.iter().position(|taken| !taken)
    }

    pub fn take(&mut self, place: usize) {
        self.taken[place] = true;
    }

    pub fn free(&mut self, place: usize) {
        self.taken[place] = false;
    }
}
