//! Big-endian words and bytes at a place of lent room, which stays as lent where they do not all fit.

/// The bytes of a word.
const WORD: usize = size_of::<u32>();

/// Writes words one behind the other from a place of the room on.
pub fn put_words(room: &mut [u8], at: usize, words: &[u32]) {
    if let Some(places) = behind(room, at, words.len().saturating_mul(WORD)) {
        for (bytes, word) in places.chunks_exact_mut(WORD).zip(words) {
            bytes.copy_from_slice(&word.to_be_bytes());
        }
    }
}

/// Writes bytes from a place of the room on.
pub fn put_bytes(room: &mut [u8], at: usize, bytes: &[u8]) {
    if let Some(places) = behind(room, at, bytes.len()) {
        places.copy_from_slice(bytes);
    }
}

/// So many bytes of the room from a place on; none where they are not all there.
fn behind(room: &mut [u8], at: usize, count: usize) -> Option<&mut [u8]> {
    room.get_mut(at..)?.get_mut(..count)
}

#[cfg(test)]
mod tests {
    use super::*;

    #[test]
    fn words_stand_highest_byte_first_and_the_rest_stays() {
        let mut room = [9; 10];
        put_words(&mut room, 1, &[0x0102_0304, 5]);
        assert_eq!(room, [9, 1, 2, 3, 4, 0, 0, 0, 5, 9]);
    }

    #[test]
    fn bytes_stand_in_their_order_and_the_rest_stays() {
        let mut room = [9; 4];
        put_bytes(&mut room, 2, &[1, 2]);
        assert_eq!(room, [9, 9, 1, 2]);
    }

    #[test]
    fn a_room_without_place_for_all_stays_as_lent() {
        let mut room = [9; 7];
        for at in [4, 7, 8, usize::MAX - 3, usize::MAX] {
            put_words(&mut room, at, &[1]);
            put_bytes(&mut room, at, &[1; 4]);
        }
        put_words(&mut room, 0, &[1, 2]);
        assert_eq!(room, [9; 7]);
    }

    #[test]
    fn nothing_is_put_anywhere() {
        let mut room = [9; 2];
        for at in [0, 2, 3, usize::MAX] {
            put_words(&mut room, at, &[]);
            put_bytes(&mut room, at, &[]);
        }
        assert_eq!(room, [9; 2]);
    }
}
