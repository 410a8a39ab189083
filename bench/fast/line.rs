//! One line of a script.

pub enum Command {
    Write { session: usize, plot: u32, value: u32 },
    Read { session: usize, plot: u32 },
    Move { session: usize, office: usize },
    Hear { office: usize },
}

/// A longer line is of no known form.
pub const LONGEST: usize = "W 0 4294967295 4294967295".len();

/// Takes a space and a decimal number with no leading zeros off the front.
fn number(line: &mut &[u8]) -> Option<u32> {
    let [b' ', digits @ ..] = *line else { return None };
    let len = digits.iter().take_while(|byte| byte.is_ascii_digit()).count();
    let (digits, rest) = digits.split_at(len);
    if digits.is_empty() || digits.len() > 10 || digits.len() > 1 && digits[0] == b'0' {
        return None;
    }
    *line = rest;
    let number = digits.iter().fold(0, |number, digit| 10 * number + u64::from(digit - b'0'));
    u32::try_from(number).ok()
}

fn below(line: &mut &[u8], bound: u32) -> Option<usize> {
    number(line).filter(|&number| number < bound).map(|number| number as usize)
}

/// What a line, without its newline, asks for; none where it is of no known form.
pub fn command(line: &[u8], sessions: u32, offices: u32) -> Option<Command> {
    let (&letter, mut rest) = line.split_first()?;
    let rest = &mut rest;
    let command = match letter {
        b'R' => Command::Read { session: below(rest, sessions)?, plot: number(rest)? },
        b'W' => Command::Write { session: below(rest, sessions)?, plot: number(rest)?, value: number(rest)? },
        b'M' => Command::Move { session: below(rest, sessions)?, office: below(rest, offices)? },
        b'H' => Command::Hear { office: below(rest, offices)? },
        _ => return None,
    };
    rest.is_empty().then_some(command)
}
