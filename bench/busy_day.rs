//! The busy day of document 02 (xii): the same script for the same seed and number of lines.
// Several programs share this file, and not each uses all of it.
#![allow(dead_code)]

/// The seeds of the days that are timed.
pub const SEEDS: [u32; 3] = [12_345, 777, 99];

struct Draws(u32);

impl Draws {
    fn draw(&mut self) -> u32 {
        self.0 = self.0.wrapping_mul(1_664_525).wrapping_add(1_013_904_223);
        self.0
    }
}

fn line(draws: &mut Draws) -> String {
    let (kind, d) = (draws.draw() >> 28, draws.draw());
    let (session, plot, value, office) = (d >> 30, (d >> 24) % 64, d % 1024, (d >> 16) % 3);
    match kind {
        0..=5 => format!("R {session} {plot}\n"),
        6..=9 => format!("W {session} {plot} {value}\n"),
        10..=12 => format!("H {office}\n"),
        _ => format!("M {session} {office}\n"),
    }
}

pub fn script(seed: u32, lines: usize) -> Vec<u8> {
    let mut draws = Draws(seed);
    (0..lines).flat_map(|_| line(&mut draws).into_bytes()).collect()
}
