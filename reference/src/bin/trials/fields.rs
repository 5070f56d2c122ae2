//! The fields of a line: bytes, and numbers.

/// What is wrong with a line.
pub type Fault = &'static str;

/// A field's bytes at most, and a lent buffer's.
pub const MOST_BYTES: usize = 17_408;
/// Likewise of numbers.
pub const MOST_NUMBERS: usize = 160;

pub fn bytes(field: &str) -> Result<Vec<u8>, Fault> {
    let mut bytes = Vec::new();
    let mut rest = present(field)?.unwrap_or("");
    while !rest.is_empty() {
        let (times, after) = times(rest)?;
        let (byte, after) = one_byte(after)?;
        bytes.resize(bytes.len() + times, byte);
        if bytes.len() > MOST_BYTES {
            return Err("a field of over 17,408 bytes");
        }
        rest = after;
    }
    Ok(bytes)
}

pub fn numbers(field: &str) -> Result<Vec<u16>, Fault> {
    let mut numbers = Vec::new();
    let parts = present(field)?.map(|text| text.split(','));
    for part in parts.into_iter().flatten() {
        let (times, number) = part.split_once('x').unwrap_or(("1", part));
        let (times, number) = (decimal(times)?, decimal(number)?);
        let number = u16::try_from(number).map_err(|_| "a number over 65,535")?;
        if numbers.len() + times as usize > MOST_NUMBERS {
            return Err("a field of over 160 numbers");
        }
        numbers.resize(numbers.len() + times as usize, number);
    }
    Ok(numbers)
}

/// So many numbers, the sizes of lent buffers.
pub fn rooms<const N: usize>(field: &str) -> Result<[usize; N], Fault> {
    let rooms = <[u16; N]>::try_from(numbers(field)?);
    let rooms = rooms.map_err(|_| "a wrong number of rooms")?;
    Ok(rooms.map(usize::from))
}

pub fn decimal(digits: &str) -> Result<u32, Fault> {
    // The standard library would take a sign too.
    if !digits.bytes().all(|byte| byte.is_ascii_digit()) {
        return Err("not a decimal number");
    }
    digits
        .parse()
        .map_err(|_| "not a decimal number of 32 bits")
}

/// `-` alone stands for nothing.
fn present(field: &str) -> Result<Option<&str>, Fault> {
    match field {
        "" => Err("a field of no characters"),
        "-" => Ok(None),
        _ => Ok(Some(field)),
    }
}

/// How often the byte stands that comes next, and what follows `{N}`.
fn times(text: &str) -> Result<(usize, &str), Fault> {
    let Some(inside) = text.strip_prefix('{') else {
        return Ok((1, text));
    };
    let (times, after) = inside.split_once('}').ok_or("`{` without `}`")?;
    match decimal(times)? as usize {
        times if times <= MOST_BYTES => Ok((times, after)),
        _ => Err("a field of over 17,408 bytes"),
    }
}

/// The byte that comes first, and what follows.
fn one_byte(text: &str) -> Result<(u8, &str), Fault> {
    if let Some(escape) = text.strip_prefix('\\') {
        return escaped(escape);
    }
    match text.as_bytes().first() {
        None => Err("`{N}` before nothing"),
        Some(b'{') => Err("`{N}` before another"),
        Some(byte) => Ok((*byte, &text[1..])),
    }
}

fn escaped(escape: &str) -> Result<(u8, &str), Fault> {
    let letters = [('r', b'\r'), ('n', b'\n'), ('s', b' ')];
    for (letter, byte) in letters {
        if let Some(after) = escape.strip_prefix(letter) {
            return Ok((byte, after));
        }
    }
    let bad = "a bad escape";
    let (digits, after) = escape.split_at_checked(2).ok_or(bad)?;
    // The standard library would take small letters and a sign too.
    let right = |digit: u8| b"0123456789ABCDEF".contains(&digit);
    if !digits.bytes().all(right) {
        return Err(bad);
    }
    let byte = u8::from_str_radix(digits, 16).map_err(|_| bad)?;
    Ok((byte, after))
}
