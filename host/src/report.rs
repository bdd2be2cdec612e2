//! Inputs for the paper's program: reports over several buffers with every kind of line and line end, and a way to
//! hand them over in short pieces.

use std::io::{self, Read, Write};
use std::thread::sleep;
use std::time::Duration;

use crate::recipe::rng::{Rng, ALPHANUMERIC};
use crate::recipe::{bench_day, spread};

/// How many bytes the proved program asks of a read.
const BUFFER: usize = 65_536;

/// How near the end of a buffer a line is made to end at it: further than any but the longest lines reach.
const NEAR: usize = 5_000;

/// A report of so many lines, and where it is said, of so many executing entities. Wherever a buffer is nearly full, a
/// line ends one byte before its end, at its end or one byte behind it, in turn. The same numbers make the same report
/// everywhere.
pub fn report(seed: u64, count: usize, firms: Option<usize>) -> Vec<u8> {
    let mut rng = Rng::new(seed);
    let mut day = bench_day(seed, count);
    if let Some(firms) = firms {
        spread(&mut Rng::new(seed), firms, &mut day.lines);
    }
    let mut report = Vec::new();
    for (number, trade) in day.lines.into_iter().enumerate() {
        let left = BUFFER - report.len() % BUFFER;
        if left < NEAR {
            let buffers = report.len() / BUFFER;
            let end: &[u8] = if buffers.is_multiple_of(2) { b"\n" } else { b"\r\n" };
            let length = left - 1 + buffers % 3;
            report.extend(rng.text(ALPHANUMERIC, length.saturating_sub(end.len())));
            report.extend(end);
            continue;
        }
        report.extend(line(&mut rng, number, trade));
        report.extend(rng.of(&[&b"\n"[..], b"\n", b"\r\n", b"\r\r\n"]));
    }
    report
}

/// Mostly a trade; else nothing, any bytes, or a line about as long as the longest that is judged, or longer than a buffer.
fn line(rng: &mut Rng, number: usize, trade: Vec<u8>) -> Vec<u8> {
    let mut line = match rng.below(16) {
        0 => Vec::new(),
        1 => vec![b'\r'],
        2 => rng.bytes(300),
        3 => {
            let length = rng.between(4_095, 4_100);
            [vec![b'|'; 64], rng.text(ALPHANUMERIC, length - 64)].concat()
        }
        4 if number.is_multiple_of(8) => rng.text(ALPHANUMERIC, BUFFER + NEAR),
        _ => trade,
    };
    line.retain(|&byte| byte != b'\n');
    line
}

/// Copies an input in pieces of changing lengths, most of them short, with a pause behind each, so that who reads gets
/// them one by one.
pub fn drip(seed: u64, mut input: impl Read, mut output: impl Write) -> io::Result<()> {
    let mut rng = Rng::new(seed);
    let mut bytes = Vec::new();
    input.read_to_end(&mut bytes)?;
    let mut rest = &bytes[..];
    while !rest.is_empty() {
        let most = rng.of(&[1, 2, 5, 80, 700, 4_098, 9_000]);
        let (piece, behind) = rest.split_at(rng.between(1, most).min(rest.len()));
        output.write_all(piece)?;
        output.flush()?;
        sleep(Duration::from_micros(100));
        rest = behind;
    }
    Ok(())
}

#[cfg(test)]
mod tests {
    use super::*;

    #[test]
    fn reports_have_every_kind_of_line() {
        let report = report(1, 6_000, None);
        let lines: Vec<&[u8]> = report.split_inclusive(|&byte| byte == b'\n').collect();
        assert_eq!(lines.len(), 6_000);
        assert!(lines.iter().any(|line| line.len() > BUFFER));
        for length in 4_095..=4_100 {
            for end in ["\n", "\r\n"] {
                let found = |line: &&[u8]| line.len() == length + end.len() && line.ends_with(end.as_bytes());
                assert!(lines.iter().any(found), "no line of {length} bytes");
            }
        }
        for whole in ["\n", "\r\n", "\r\r\n", "\r\r\r\n"] {
            assert!(lines.contains(&whole.as_bytes()));
        }
        for end in ["\n", "\r\n"] {
            for behind in 0..3 {
                let ends_so = |edge: usize| report[..edge - 1 + behind].ends_with(end.as_bytes());
                let edges = (BUFFER..report.len() - 1).step_by(BUFFER);
                assert!(edges.filter(|&edge| ends_so(edge)).count() > 3, "{behind}");
            }
        }
        assert_eq!(report, super::report(1, 6_000, None));
        assert_ne!(report, super::report(2, 6_000, None));
    }

    #[test]
    fn reports_of_many_entities() {
        for (firms, records) in [(1, 1), (255, 255), (256, 256), (300, 256)] {
            let mut output = Vec::new();
            crate::program::run(&report(1, 6_000, Some(firms))[..], &mut output, true).unwrap();
            let text = String::from_utf8_lossy(&output);
            let mut summary = text.lines().skip_while(|line| *line != "summary").skip(1);
            assert_eq!(summary.clone().count(), records + 1);
            // Some come back.
            let numbers = |line: &str| line.split(' ').skip(1).take(5).map(|n| n.parse::<u32>().unwrap()).sum::<u32>();
            assert!(summary.any(|line| numbers(line) > 9));
        }
    }

    /// Notes the lengths of the pieces that it gets.
    struct Pieces(Vec<u8>, Vec<usize>);

    impl Write for Pieces {
        fn write(&mut self, piece: &[u8]) -> io::Result<usize> {
            self.1.push(piece.len());
            self.0.write(piece)
        }

        fn flush(&mut self) -> io::Result<()> {
            Ok(())
        }
    }

    #[test]
    fn all_drips_through() {
        let input = report(3, 100, None);
        let mut pieces = Pieces(Vec::new(), Vec::new());
        drip(1, &input[..], &mut pieces).unwrap();
        assert!(pieces.0 == input);
        assert!(pieces.1.contains(&1) && pieces.1.iter().all(|&length| length <= 9_000));
    }
}
