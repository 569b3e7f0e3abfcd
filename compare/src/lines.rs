//! Call lines read strictly, call lines and answer lines written.

use crate::grid::Rectangle;
use crate::ledger::{Answer, Ask, Call, Report, When};

/// The columns of a number.
pub const COLUMNS: usize = 10;
pub const LEAST: i64 = -999_999_999;
pub const GREATEST: i64 = 2_147_483_647;
/// The most numbers of a call.
const MOST: usize = 7;
/// The longest call line: a letter and its numbers.
pub const LONGEST: usize = 1 + MOST * COLUMNS;

/// The call on a line without its newline, if the line is one.
pub fn read_call(line: &[u8]) -> Option<Call> {
    let (&letter, rest) = line.split_first()?;
    let (fields, cut_off) = rest.as_chunks::<COLUMNS>();
    let mut numbers = [0; MOST];
    let numbers = numbers.get_mut(..fields.len())?;
    for (number, field) in numbers.iter_mut().zip(fields) {
        *number = read_number(field)?;
    }
    call(letter, numbers).filter(|_| cut_off.is_empty())
}

/// The call of a letter and the numbers that follow it.
pub fn call(letter: u8, numbers: &[i64]) -> Option<Call> {
    let call = match (letter, numbers) {
        (b'O', &[t]) => Call::Open { t },
        (b'C', &[t]) => Call::Clock { t },
        (b'D', &[id, t]) => Call::Drop { id, t },
        (b'A' | b'U', &[id, t, x, y, vx, vy]) => {
            let (at, speed) = ([x, y], [vx, vy]);
            let report = Report { id, t, at, speed };
            match letter {
                b'A' => Call::Add(report),
                _ => Call::Report(report),
            }
        }
        (b'Q', &[method, time, ref corners @ ..]) => ask(method, When::At(time), corners)?,
        (b'W', &[method, first, last, ref corners @ ..]) => {
            ask(method, When::During { first, last }, corners)?
        }
        _ => return None,
    };
    Some(call)
}

fn ask(method: i64, when: When, corners: &[i64]) -> Option<Call> {
    let &[low_x, low_y, high_x, high_y] = corners else {
        return None;
    };
    let rectangle = Rectangle { low: [low_x, low_y], high: [high_x, high_y] };
    Some(Call::Ask(Ask { method, when, rectangle }))
}

/// The numbers of an add or a report.
pub fn report_numbers(s: &Report) -> [i64; 6] {
    [s.id, s.t, s.at[0], s.at[1], s.speed[0], s.speed[1]]
}

fn read_number(field: &[u8; COLUMNS]) -> Option<i64> {
    let start = field.iter().position(|byte| *byte != b' ')?;
    let (negative, digits) = match &field[start..] {
        [b'-', digits @ ..] => (true, digits),
        digits => (false, digits),
    };
    if digits.is_empty() || !digits.iter().all(u8::is_ascii_digit) {
        return None;
    }
    if digits[0] == b'0' && (digits.len() > 1 || negative) {
        return None;
    }
    let size = digits.iter().fold(0, |n, d| 10 * n + (d - b'0') as i64);
    let number = if negative { -size } else { size };
    (LEAST..=GREATEST).contains(&number).then_some(number)
}

/// Writes a number right-justified in its columns.
fn write_number(number: i64, out: &mut Vec<u8>) {
    let mut field = [b' '; COLUMNS];
    let mut rest = number.unsigned_abs();
    let mut at = COLUMNS;
    loop {
        at -= 1;
        field[at] = b'0' + (rest % 10) as u8;
        rest /= 10;
        if rest == 0 {
            break;
        }
    }
    if number < 0 {
        field[at - 1] = b'-';
    }
    out.extend_from_slice(&field);
}

/// Writes a letter and numbers as a line.
pub fn write_line<'a>(letter: u8, numbers: impl IntoIterator<Item = &'a i64>, out: &mut Vec<u8>) {
    out.push(letter);
    for number in numbers {
        write_number(*number, out);
    }
    out.push(b'\n');
}

/// Writes the answer to the call that came with this letter.
pub fn write_answer(letter: u8, answer: &Answer, out: &mut Vec<u8>) {
    match answer {
        Answer::Accepted(value) => write_line(letter, &[0, *value], out),
        Answer::Refused(number, value) => write_line(letter, &[*number, *value], out),
        Answer::Listed { ids, cells, useful, rounds } => {
            let counts = [0, ids.len(), *cells, *useful, *rounds].map(|count| count as i64);
            write_line(letter, counts.iter().chain(ids), out);
        }
    }
}

/// Writes the answer to a line that is no call.
pub fn write_unread(out: &mut Vec<u8>) {
    write_line(b'?', &[9, 0], out);
}

#[cfg(test)]
mod tests {
    use super::*;

    fn number(text: &str) -> Option<i64> {
        assert_eq!(text.len(), COLUMNS);
        match read_call(format!("O{text}").as_bytes()) {
            Some(Call::Open { t }) => Some(t),
            _ => None,
        }
    }

    #[test]
    fn numbers_that_are_read() {
        let cases = [0, 1, 7, 10, -1, -10, 999, LEAST, LEAST + 1, GREATEST - 1];
        for n in cases.into_iter().chain([GREATEST]) {
            assert_eq!(number(&format!("{n:>10}")), Some(n));
        }
    }

    #[test]
    fn numbers_that_are_not_read() {
        let cases = [
            "", "-", "+5", "-0", "007", "00", "-07", "-00", "--5", "5-", "- 5", "1 2", " 1 2", "x",
            "5x", "0x1", "1e3", ".5", "5.", "5 ", "\t5", "5\t", "5\r", "1,000", "\0", "5\0",
        ];
        for text in cases {
            assert_eq!(number(&format!("{text:>10}")), None, "{text:?}");
        }
        let wide = ["2147483648", "9999999999", "0000000005", "-000000005", "5         "];
        for text in wide {
            assert_eq!(number(text), None, "{text:?}");
        }
    }

    #[test]
    fn lines_that_are_not_read() {
        let good = b"D         7        10";
        assert!(read_call(good).is_some());
        for cut in 0..good.len() {
            assert_eq!(read_call(&good[..cut]), None);
            assert_eq!(read_call(&good[cut + 1..]), None);
        }
        for extra in [" ", "\r", "0", "\0", "         0"] {
            assert_eq!(read_call(&[&good[..], extra.as_bytes()].concat()), None);
        }
        for letter in 0..=255 {
            let line = [&[letter], &good[1..]].concat();
            assert_eq!(read_call(&line).is_some(), letter == b'D');
        }
    }

    #[test]
    fn a_written_call_line_is_read_as_that_call() {
        let counts = [(b'O', 1), (b'C', 1), (b'D', 2), (b'A', 6), (b'U', 6), (b'Q', 6), (b'W', 7)];
        for (letter, count) in counts {
            for n in [LEAST, -1, 0, 1, 65_535, GREATEST] {
                let mut line = Vec::new();
                let numbers: Vec<i64> = (1..=count).map(|i| n / i).collect();
                write_line(letter, &numbers, &mut line);
                let read = read_call(&line[..line.len() - 1]);
                assert!(read.is_some() && read == call(letter, &numbers));
                let more = [&numbers[..], &[0]].concat();
                assert!([&numbers[1..], &more].map(|other| call(letter, other)) == [None, None]);
            }
        }
    }
}
