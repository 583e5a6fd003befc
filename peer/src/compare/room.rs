//! Room that is lent to a call, with margins around it that no call may write to.

use std::fmt::{self, Debug, Formatter};

use peer::random::Random;
use peer::refusal;

/// The elements of each margin.
const MARGIN: usize = 2;

/// An element of a room.
pub trait Element: Copy + PartialEq + Debug + Default {
    /// A random element.
    fn any(random: &mut Random) -> Self;
}

impl Element for bool {
    fn any(random: &mut Random) -> bool {
        random.once_in(2)
    }
}

impl Element for u8 {
    fn any(random: &mut Random) -> u8 {
        random.byte()
    }
}

impl Element for u16 {
    fn any(random: &mut Random) -> u16 {
        random.word() as u16
    }
}

impl Element for u32 {
    fn any(random: &mut Random) -> u32 {
        random.word()
    }
}

impl Element for u64 {
    fn any(random: &mut Random) -> u64 {
        random.bits()
    }
}

/// Room with its margins; two are equal only where their margins are.
#[derive(Clone, PartialEq)]
pub struct Room<E> {
    elements: Vec<E>,
}

impl<E: Element> Room<E> {
    /// A room of a length, all zeros.
    pub fn new(length: usize) -> Room<E> {
        Room {
            elements: vec![E::default(); length + 2 * MARGIN],
        }
    }

    /// A room of a length, filled at random, margins too.
    pub fn filled(random: &mut Random, length: usize) -> Room<E> {
        let mut room = Room::new(length);
        room.elements.fill_with(|| E::any(random));
        room
    }

    /// A filled room: mostly exactly as long as needed, else one element shorter, or of any length up to the longest.
    pub fn any(random: &mut Random, needed: usize, longest: usize) -> Room<E> {
        let length = match random.below(4) {
            0 => random.below(longest as u32 + 1) as usize,
            1 => needed.saturating_sub(1),
            _ => needed,
        };
        Room::filled(random, length)
    }

    /// The elements that are lent.
    pub fn length(&self) -> usize {
        self.elements.len() - 2 * MARGIN
    }

    /// What is lent.
    #[inline]
    pub fn lent(&mut self) -> &mut [E] {
        let end = self.elements.len() - MARGIN;
        &mut self.elements[MARGIN..end]
    }
}

impl<E: Element> Debug for Room<E> {
    /// The lent elements between the margins.
    fn fmt(&self, f: &mut Formatter<'_>) -> fmt::Result {
        let (before, behind) = self.elements.split_at(MARGIN);
        let (lent, after) = behind.split_at(behind.len() - MARGIN);
        write!(f, "{before:?} {lent:?} {after:?}")
    }
}

/// Tells an answer as the exported calls do: returns its refusal, and writes its values to the room's start where there is none.
#[inline]
pub fn told<E: Element>(refusal: u32, values: &[E], room: &mut [E]) -> u32 {
    if refusal != refusal::NONE {
        return refusal;
    }
    let Some(written) = room.get_mut(..values.len()) else {
        return refusal::ROOM;
    };
    written.copy_from_slice(values);
    refusal::NONE
}

#[cfg(test)]
mod tests {
    use super::*;

    #[test]
    fn an_answer_is_written_to_the_start_and_the_rest_stays() {
        let mut room = [9u32; 4];
        assert_eq!(told(0, &[1, 2], &mut room), 0);
        assert_eq!(room, [1, 2, 9, 9]);
    }

    #[test]
    fn a_refused_answer_and_a_short_room_leave_the_room_as_lent() {
        let mut room = [9u32; 2];
        assert_eq!(told(3, &[1, 2], &mut room), 3);
        assert_eq!(told(3, &[1, 2, 3], &mut room), 3);
        assert_eq!(told(0, &[1, 2, 3], &mut room), 6);
        assert_eq!(room, [9; 2]);
    }

    #[test]
    fn what_is_lent_has_the_asked_length_and_margins_around_it() {
        let mut room = Room::<u8>::new(3);
        room.lent().fill(7);
        assert_eq!(room.elements, [0, 0, 7, 7, 7, 0, 0]);
        assert_eq!(format!("{room:?}"), "[0, 0] [7, 7, 7] [0, 0]");
    }

    #[test]
    fn rooms_that_differ_in_a_margin_alone_are_not_equal() {
        let room = Room::<u16>::new(1);
        for place in 0..room.elements.len() {
            let mut other = room.clone();
            other.elements[place] = 1;
            assert_ne!(room, other);
        }
    }

    #[test]
    fn any_room_meets_every_length_up_to_the_longest() {
        let mut random = Random::new(5);
        let mut met = [false; 7];
        for _ in 0..1000 {
            met[Room::<u32>::any(&mut random, 4, 6).lent().len()] = true;
        }
        assert_eq!(met, [true; 7]);
    }
}
