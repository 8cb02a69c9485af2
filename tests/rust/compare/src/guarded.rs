//! Lent buffers: canaries before them, and behind them a page that may not be
//! touched, or canaries too.

use crate::edge::Edge;

/// The canaries before a buffer, and the fewest behind it where there are any.
/// A multiple of what numbers are aligned to.
pub const WIDTH: usize = 48;

/// A buffer to lend, which stands in the memory of an edge.
pub struct Guarded<'a> {
    name: &'static str,
    edge: &'a mut Edge,
    length: usize,
    behind: usize,
}

/// The canary at a place; neighbours differ.
fn canary(place: usize) -> u8 {
    (place as u8).wrapping_mul(7) ^ 0xa5
}

impl<'a> Guarded<'a> {
    /// A copy of the bytes, with so many canaries between their end and the
    /// page.
    pub fn new(name: &'static str, edge: &'a mut Edge, bytes: &[u8], behind: usize) -> Guarded<'a> {
        let length = bytes.len();
        let mut guarded = Guarded {
            name,
            edge,
            length,
            behind,
        };
        let [before, inside, after] = guarded.parts();
        for side in [before, after] {
            for (place, byte) in side.iter_mut().enumerate() {
                *byte = canary(place);
            }
        }
        inside.copy_from_slice(bytes);
        guarded
    }

    /// What stands before the buffer, the buffer, and what stands behind it.
    fn parts(&mut self) -> [&mut [u8]; 3] {
        let all = self.edge.last(WIDTH + self.length + self.behind);
        let (before, rest) = all.split_at_mut(WIDTH);
        let (inside, after) = rest.split_at_mut(self.length);
        [before, inside, after]
    }

    /// The buffer, as C takes it.
    pub fn lent(&mut self) -> (*mut u8, usize) {
        (self.parts()[1].as_mut_ptr(), self.length)
    }

    /// The bytes after a call, or what is wrong with the canaries.
    pub fn after(&mut self) -> Result<&[u8], String> {
        let (name, length) = (self.name, self.length);
        let [before, inside, after] = self.parts();
        for (side, first) in [(before, -(WIDTH as isize)), (after, length as isize)] {
            let altered = side
                .iter()
                .enumerate()
                .find(|(i, &byte)| byte != canary(*i));
            if let Some((place, _)) = altered {
                let offset = first + place as isize;
                return Err(format!(
                    "wrote outside '{name}', at {offset} of {length} bytes"
                ));
            }
        }
        Ok(inside)
    }

    /// Holds an input to what was lent.
    pub fn unaltered(&mut self, lent: &[u8]) -> Result<(), String> {
        if self.after()? != lent {
            return Err(format!("altered its input '{}'", self.name));
        }
        Ok(())
    }
}

#[cfg(test)]
mod tests {
    use super::*;

    /// A canary that is altered on either side is told, with its place, and so
    /// is a byte of an input.
    #[test]
    fn what_is_altered_is_told() {
        let (mut edge, lent) = (Edge::new(0), [7; 20]);
        let places = [
            (0, 0, "-48"),
            (0, WIDTH - 1, "-1"),
            (2, 0, "20"),
            (2, 5, "25"),
        ];
        for (side, place, offset) in places {
            let mut guarded = Guarded::new("input", &mut edge, &lent, WIDTH);
            assert_eq!(guarded.unaltered(&lent), Ok(()));
            guarded.parts()[side][place] ^= 1;
            let fault = format!("wrote outside 'input', at {offset} of 20 bytes");
            assert_eq!(guarded.unaltered(&lent), Err(fault));
        }
        let mut guarded = Guarded::new("input", &mut edge, &lent, 0);
        guarded.parts()[1][19] ^= 1;
        let fault = "altered its input 'input'".to_string();
        assert_eq!(guarded.unaltered(&lent), Err(fault));
        assert_eq!(guarded.lent().0.wrapping_add(20), edge.end());
    }
}
