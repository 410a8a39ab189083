//! Clocks and sets of ids: eight words, one for each office. Loops go over all eight places and none leaves
//! early, so that they become vectors.

pub type Places = [u32; 8];

/// A number at the places of a ring, and zeros at the others.
pub fn in_ring(number: u32, offices: u32) -> Places {
    std::array::from_fn(|place| if (place as u32) < offices { number } else { 0 })
}

/// Whether a clock's numbers are in range: at most 32, and 0 outside the ring.
pub fn clock_ok(clock: &Places, offices: u32) -> bool {
    let most = in_ring(32, offices);
    clock.iter().zip(&most).fold(true, |ok, (number, most)| ok & (number <= most))
}

/// Whether a set has ids of a ring only.
pub fn set_ok(set: &Places, offices: u32) -> bool {
    within(set, &in_ring(u32::MAX, offices))
}

pub fn any(set: &Places) -> bool {
    set.iter().fold(0, |all, word| all | word) != 0
}

pub fn unite(set: &mut Places, other: &Places) {
    set.iter_mut().zip(other).for_each(|(word, more)| *word |= more);
}

pub fn without(set: &Places, other: &Places) -> Places {
    std::array::from_fn(|place| set[place] & !other[place])
}

pub fn within(small: &Places, large: &Places) -> bool {
    !any(&without(small, large))
}

/// Place by place the greater.
#[inline]
pub fn join(clock: &mut Places, other: &Places) {
    clock.iter_mut().zip(other).for_each(|(number, more)| *number = (*number).max(*more));
}

pub fn count(set: &Places) -> usize {
    set.iter().map(|word| word.count_ones()).sum::<u32>() as usize
}
