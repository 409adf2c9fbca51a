//! Memory lent to the archive, a copy of the case's slice. Mostly it lies
//! between guards, at varying alignment: a write outside is seen, and so is code
//! that counts on more than the element's own alignment. Now and then it lies
//! against a page that may not be touched, with guards on its other side; there
//! a read outside is seen as well. A slice of nothing is NULL half of the time.

use crate::guc::pages::Pages;
use model::generate::Rng;

/// A slice to lend: `count` values after `front` guards, more guards after them.
#[derive(Debug)]
pub struct Lent<T> {
    all: Memory<T>,
    front: usize,
    count: usize,
    start: u32,
    null: bool,
}

#[derive(Debug)]
enum Memory<T> {
    Heap(Vec<T>),
    Paged(Pages<T>),
}

/// Guards after the slice, enough for the widest store that begins within it;
/// before it there are as many, and up to `SHIFT` more.
const SIDE: usize = 16;
const SHIFT: u64 = 15;
/// One slice in so many lies against a page.
const PAGED: u64 = 24;

/// Values that guards take: another at each place, from a start that is another
/// for each slice, so that a neighbour's value copied or shifted here is seen.
pub trait Guard: Copy + PartialEq {
    fn guard(start: u32, place: usize) -> Self;
}

impl Guard for u32 {
    fn guard(start: u32, place: usize) -> u32 {
        start.wrapping_add((place as u32).wrapping_mul(0x9E37_79B1))
    }
}

impl Guard for u16 {
    fn guard(start: u32, place: usize) -> u16 {
        (start as u16).wrapping_add((place as u16).wrapping_mul(0x9E37))
    }
}

impl Guard for u8 {
    fn guard(start: u32, place: usize) -> u8 {
        (start as u8).wrapping_add((place as u8).wrapping_mul(0x9D))
    }
}

/// The guards of these places.
fn guards<T: Guard>(start: u32, places: std::ops::Range<usize>) -> impl Iterator<Item = T> {
    places.map(move |place| T::guard(start, place))
}

/// The slice with so many guards before and after it, and where those start.
fn between_guards<T: Guard>(
    rng: &mut Rng,
    contents: &[T],
    front: usize,
    behind: usize,
) -> (Vec<T>, u32) {
    let (start, back) = (rng.word(), front + contents.len());
    let mut all = Vec::with_capacity(back + behind);
    all.extend(guards::<T>(start, 0..front));
    all.extend_from_slice(contents);
    all.extend(guards::<T>(start, back..back + behind));
    (all, start)
}

impl<T: Guard> Lent<T> {
    pub fn new(rng: &mut Rng, contents: &[T]) -> Lent<T> {
        let (count, null) = (contents.len(), contents.is_empty() && rng.chance(1, 2));
        if rng.chance(1, PAGED) {
            let at_end = rng.chance(3, 4);
            let (front, back) = if at_end { (SIDE, 0) } else { (0, SIDE) };
            let (all, start) = between_guards(rng, contents, front, back);
            if let Some(pages) = Pages::new(&all, at_end) {
                return Lent { all: Memory::Paged(pages), front, count, start, null };
            }
        }
        let front = SIDE + rng.between(0, SHIFT) as usize;
        let (all, start) = between_guards(rng, contents, front, SIDE);
        Lent { all: Memory::Heap(all), front, count, start, null }
    }

    fn all(&self) -> &[T] {
        match &self.all {
            Memory::Heap(all) => all,
            Memory::Paged(pages) => pages.get(),
        }
    }

    fn all_mut(&mut self) -> &mut [T] {
        match &mut self.all {
            Memory::Heap(all) => all,
            Memory::Paged(pages) => pages.get_mut(),
        }
    }

    pub fn get(&self) -> &[T] {
        &self.all()[self.front..self.front + self.count]
    }

    pub fn get_mut(&mut self) -> &mut [T] {
        let (from, to) = (self.front, self.front + self.count);
        &mut self.all_mut()[from..to]
    }

    /// As it is lent: `None` for NULL.
    pub fn lend(&self) -> Option<&[T]> {
        (!self.null).then(|| self.get())
    }

    pub fn lend_mut(&mut self) -> Option<&mut [T]> {
        if self.null {
            return None;
        }
        Some(self.get_mut())
    }

    /// Whether it is lent as NULL.
    pub fn null(&self) -> bool {
        self.null
    }

    /// Whether it lies against a page that may not be touched.
    pub fn paged(&self) -> bool {
        matches!(self.all, Memory::Paged(_))
    }

    /// Whether the guards still stand.
    pub fn intact(&self) -> bool {
        let (all, back) = (self.all(), self.front + self.count);
        all[..self.front].iter().copied().eq(guards::<T>(self.start, 0..self.front))
            && all[back..].iter().copied().eq(guards::<T>(self.start, back..all.len()))
    }
}

/// Dwords to lend.
pub fn words(rng: &mut Rng, contents: &[u32]) -> Lent<u32> {
    Lent::new(rng, contents)
}

/// 16-bit words to lend.
pub fn halves(rng: &mut Rng, contents: &[u16]) -> Lent<u16> {
    Lent::new(rng, contents)
}

/// Bytes to lend.
pub fn bytes(rng: &mut Rng, contents: &[u8]) -> Lent<u8> {
    Lent::new(rng, contents)
}

#[cfg(test)]
mod tests {
    use super::*;

    /// Tries a write on slices with guards on both sides: whether each is seen.
    fn seen(write: impl Fn(&mut [u32], usize, usize)) -> bool {
        let mut rng = Rng::new(4);
        let mut tried = (0..200).map(|_| {
            let contents = rng.words(3);
            let mut lent = words(&mut rng, &contents);
            let (front, back) = (lent.front, lent.front + lent.count);
            let both = !lent.paged();
            if both {
                write(lent.all_mut(), front, back);
            }
            !both || !lent.intact()
        });
        tried.all(|seen| seen)
    }

    /// A changed guard on either side is seen.
    #[test]
    fn a_write_outside_is_seen() {
        assert!(!seen(|_, _, _| {}));
        assert!(seen(|all, _, _| all[0] ^= 1));
        assert!(seen(|all, front, _| all[front - 1] ^= 1 << 31));
        assert!(seen(|all, _, back| all[back] ^= 1));
        assert!(seen(|all, _, back| all[back + SIDE - 1] = 0));
    }

    /// So is a guard that took its neighbour's value, and all of them shifted.
    #[test]
    fn a_neighbours_value_is_seen() {
        assert!(seen(|all, front, _| all[front - 1] = all[front - 2]));
        assert!(seen(|all, front, _| all[front - 1] = all[front]));
        assert!(seen(|all, _, back| all[back] = all[back + 1]));
        assert!(seen(|all, _, back| all.copy_within(back..back + 3, back + 1)));
        let bytes: Vec<u8> = guards(7, 0..256).collect();
        assert!((0..256).all(|at| !bytes[..at].contains(&bytes[at])));
    }

    /// The side of a slice that lies against no page has guards too.
    #[test]
    fn a_write_on_the_open_side_is_seen() {
        let mut rng = Rng::new(6);
        let lents = (0..400).map(|_| words(&mut rng, &[5; 3]));
        let mut paged: Vec<Lent<u32>> = lents.filter(|lent| lent.paged()).collect();
        assert!(paged.iter().any(|lent| lent.front == 0));
        assert!(paged.iter().any(|lent| lent.front == SIDE));
        for lent in &mut paged {
            let at = if lent.front == 0 { lent.count } else { lent.front - 1 };
            assert!(lent.intact());
            lent.all_mut()[at] ^= 1;
            assert!(!lent.intact());
        }
    }
}
