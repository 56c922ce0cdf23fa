//! First-come lines: each line is a ring of links through its members and a node of its own.

use super::{LINES, Lines};

/// Threads are nodes 0 to 63, line l is node 64 + l; the rest pad the array to a power of two.
const NODES: usize = 128;
const FIRST_LINE: u8 = 64;

#[derive(Clone, Copy)]
struct Link {
    next: u8,
    previous: u8,
}

#[derive(Clone)]
pub struct FirstCome {
    links: [Link; NODES],
}

impl FirstCome {
    /// Every line is a ring of its own node alone.
    const EMPTY: FirstCome = {
        let mut links = [Link { next: 0, previous: 0 }; NODES];
        let mut node = FIRST_LINE as usize;
        while node < FIRST_LINE as usize + LINES {
            links[node] = Link { next: node as u8, previous: node as u8 };
            node += 1;
        }
        FirstCome { links }
    };

    #[inline]
    pub fn new() -> FirstCome {
        FirstCome::EMPTY
    }

    // The mask keeps the number where it is and spares the check of bounds.
    #[inline]
    fn link(&mut self, node: u8) -> &mut Link {
        &mut self.links[node as usize % NODES]
    }

    #[inline]
    fn first(&self, line: u8) -> u8 {
        self.links[(FIRST_LINE + line) as usize % NODES].next
    }

    #[inline]
    fn unlink(&mut self, node: u8) {
        let Link { next, previous } = *self.link(node);
        self.link(previous).next = next;
        self.link(next).previous = previous;
    }
}

impl Default for FirstCome {
    fn default() -> FirstCome {
        FirstCome::new()
    }
}

impl Lines for FirstCome {
    const SERVES: u32 = 64;

    #[inline]
    fn add(&mut self, line: u8, thread: u8) {
        let end = FIRST_LINE + line;
        let last = self.link(end).previous;
        *self.link(thread) = Link { next: end, previous: last };
        self.link(last).next = thread;
        self.link(end).previous = thread;
    }

    #[inline]
    fn take(&mut self, line: u8) -> Option<u8> {
        let first = self.first(line);
        if first == FIRST_LINE + line {
            return None;
        }
        self.unlink(first);
        Some(first)
    }

    #[inline]
    fn take_all(&mut self, line: u8, mut each: impl FnMut(u8)) {
        let end = FIRST_LINE + line;
        let mut node = self.first(line);
        while node != end {
            each(node);
            node = self.link(node).next;
        }
        // Nobody looks at the links of a thread that stands in no line.
        *self.link(end) = Link { next: end, previous: end };
    }

    #[inline]
    fn remove(&mut self, _line: u8, thread: u8) {
        self.unlink(thread);
    }

    #[inline]
    fn is_empty(&self, line: u8) -> bool {
        self.first(line) == FIRST_LINE + line
    }
}
