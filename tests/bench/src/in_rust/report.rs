//! The report of a record.
use super::contrast::check;
use super::even::even;
use super::job::VALUES;
use super::nearest::nearest;

/// What the text is made room for.
const LONGEST: usize = 4_096;

fn put_number(text: &mut Vec<u8>, mut n: u64) {
    let mut digits = [0; 20];
    let mut first = digits.len();
    loop {
        first -= 1;
        digits[first] = b'0' + (n % 10) as u8;
        n /= 10;
        if n == 0 {
            break;
        }
    }
    text.extend_from_slice(&digits[first..]);
}

fn put_line(text: &mut Vec<u8>, word: &[u8], numbers: &[u64]) {
    text.extend_from_slice(word);
    for &n in numbers {
        text.push(b' ');
        put_number(text, n);
    }
    text.push(b'\n');
}

fn made(bytes: &[u8]) -> Result<Vec<u8>, u32> {
    let refused = |number| if number == 0 { Ok(()) } else { Err(number) };
    let (mut nearest_table, mut even_table, mut work) = ([0; VALUES], [0; VALUES], [0; 8192]);
    let figures = nearest(bytes, &mut nearest_table);
    refused(figures.refusal)?;
    let even = even(bytes, &mut even_table, &mut work);
    refused(even.refusal)?;
    let check = check(bytes, &mut [0; 17]);
    refused(check.refusal)?;

    let mut text = Vec::with_capacity(LONGEST);
    put_line(&mut text, b"range", &[figures.jlo, figures.jhi, figures.range].map(u64::from));
    put_line(&mut text, if figures.room_high == 0 { b"room low" } else { b"room high" }, &[]);
    put_line(&mut text, b"even", &[even.worst_step]);
    put_line(&mut text, [&b"check none"[..], b"check pass", b"check fail"][check.verdict as usize], &[]);
    for (p, (&nearest, &even)) in (0..).zip(nearest_table.iter().zip(&even_table)) {
        put_number(&mut text, p);
        put_line(&mut text, b"", &[nearest, even].map(u64::from));
    }
    Ok(text)
}

pub fn report(bytes: &[u8]) -> Vec<u8> {
    made(bytes).unwrap_or_else(|number| {
        let mut text = Vec::new();
        put_line(&mut text, b"refused", &[u64::from(number)]);
        text
    })
}
