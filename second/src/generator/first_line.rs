//! First lines for the whole exchange, good and bad.

use super::prng::Prng;

/// A good first line with its LF, the control number at times padded.
pub fn good(prng: &mut Prng, date: u32, time: u32, control: u32) -> Vec<u8> {
    let width = prng.below(10);
    format!("{date:08} {time:04} {control:0width$}\n").into_bytes()
}

/// A first line that is refused, or takes the interchange's first LF for its own.
pub fn bad(prng: &mut Prng, date: u32, time: u32, control: u32) -> Vec<u8> {
    let line = match prng.below(14) {
        0 => String::new(),
        1 => "\n".to_string(),
        2 => format!("{date:08} {time:04} {control}"),
        3 => format!("{date:08} {time:04} {control}\r\n"),
        4 => format!("{date:08}  {time:04} {control}\n"),
        5 => format!("{date:08} {time:04}  {control}\n"),
        6 => format!(" {date:08} {time:04} {control}\n"),
        7 => format!("{date:08} {time:04} {control} \n"),
        8 => format!("{date:08}\t{time:04} {control}\n"),
        9 => format!("{date:07} {time:05} {control}\n"),
        10 => format!("{date:09} {time:04} {control}\n"),
        11 => format!("{date:08} {time:04} {control:010}\n"),
        12 => format!("{date:08} {time:04} \n"),
        _ => format!("{date:08} {time:04} -{control}\n"),
    };
    line.into_bytes()
}
