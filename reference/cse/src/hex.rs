//! Bytes as hexadecimal digits; `-` stands for no bytes.

/// The bytes that a text stands for, or what is wrong with it.
pub fn parse(text: &str) -> Result<Vec<u8>, String> {
    if text == "-" {
        return Ok(Vec::new());
    }
    if text.is_empty() {
        return Err("nothing here; no bytes are written -".to_string());
    }
    let digits: Vec<u8> = text
        .chars()
        .enumerate()
        .map(|(column, c)| match c.to_digit(16) {
            Some(digit) => Ok(digit as u8),
            None => Err(format!("{c:?} in column {} is no hex digit", column + 1)),
        })
        .collect::<Result<_, _>>()?;
    if digits.len() % 2 == 1 {
        return Err(format!("an odd number of hex digits, {}", digits.len()));
    }
    Ok(digits
        .chunks_exact(2)
        .map(|pair| pair[0] << 4 | pair[1])
        .collect())
}

pub fn print(bytes: &[u8]) -> String {
    if bytes.is_empty() {
        return "-".to_string();
    }
    bytes.iter().map(|byte| format!("{byte:02x}")).collect()
}
