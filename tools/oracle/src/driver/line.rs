//! The line format: a call, and bytes as hexadecimal pairs with repetitions.

/// One call: its name, two byte arguments, three numbers, the destination before the call.
#[derive(Debug, Clone, Default, PartialEq)]
pub struct Call {
    pub name: String,
    pub b1: Vec<u8>,
    pub b2: Vec<u8>,
    pub n: [u64; 3],
    pub d: Vec<u8>,
}

impl Call {
    pub fn new(name: &str) -> Call {
        Call {
            name: name.to_string(),
            ..Call::default()
        }
    }

    pub fn b1(mut self, bytes: &[u8]) -> Call {
        self.b1 = bytes.to_vec();
        self
    }

    pub fn b2(mut self, bytes: &[u8]) -> Call {
        self.b2 = bytes.to_vec();
        self
    }

    pub fn n(mut self, numbers: &[u64]) -> Call {
        self.n[..numbers.len()].copy_from_slice(numbers);
        self
    }

    pub fn d(mut self, bytes: &[u8]) -> Call {
        self.d = bytes.to_vec();
        self
    }

    /// The call as it is written, without an answer.
    pub fn write(&self) -> String {
        let [n1, n2, n3] = self.n;
        let (b1, b2, d) = (
            write_bytes(&self.b1),
            write_bytes(&self.b2),
            write_bytes(&self.d),
        );
        format!("{} {b1} {b2} {n1} {n2} {n3} {d}", self.name)
    }

    pub fn read(text: &str) -> Result<Call, String> {
        let fields: Vec<&str> = text.split(' ').collect();
        let [name, b1, b2, n1, n2, n3, d] = fields[..] else {
            return Err(format!("{} fields, not 7", fields.len()));
        };
        Ok(Call {
            name: name.to_string(),
            b1: read_bytes(b1)?,
            b2: read_bytes(b2)?,
            n: [read_number(n1)?, read_number(n2)?, read_number(n3)?],
            d: read_bytes(d)?,
        })
    }
}

pub fn read_number(text: &str) -> Result<u64, String> {
    if text.is_empty() || !text.bytes().all(|c| c.is_ascii_digit()) {
        return Err(format!("{text:?} is no number"));
    }
    text.parse()
        .map_err(|_| format!("{text} is not below 2^64"))
}

fn read_pair(pair: &[u8]) -> Result<u8, String> {
    let digit = |c: u8| match c {
        b'0'..=b'9' => Ok(c - b'0'),
        b'a'..=b'f' => Ok(c - b'a' + 10),
        _ => Err(format!("{:?} is no lowercase hexadecimal digit", c as char)),
    };
    let [high, low] = pair[..] else {
        return Err("half a pair".to_string());
    };
    Ok(16 * digit(high)? + digit(low)?)
}

pub fn read_bytes(text: &str) -> Result<Vec<u8>, String> {
    let mut bytes = Vec::new();
    if text == "-" {
        return Ok(bytes);
    }
    if text.is_empty() {
        return Err("an empty field (no bytes are written -)".to_string());
    }
    let mut rest = text.as_bytes();
    while !rest.is_empty() {
        let (pair, after) = rest.split_at(rest.len().min(2));
        let byte = read_pair(pair)?;
        rest = after;
        let mut count = 1;
        if let Some(after) = rest.strip_prefix(b"*") {
            // A count takes every digit that follows it; a comma may end it.
            let end = after.iter().position(|c| !c.is_ascii_digit());
            let (digits, after) = after.split_at(end.unwrap_or(after.len()));
            count = read_number(std::str::from_utf8(digits).unwrap())?;
            rest = after.strip_prefix(b",").unwrap_or(after);
        }
        if count == 0 {
            return Err("a repetition of 0".to_string());
        }
        bytes.extend(std::iter::repeat_n(byte, count as usize));
    }
    Ok(bytes)
}

/// The end of the run of equal bytes that starts at `start`.
fn run_end(bytes: &[u8], start: usize) -> usize {
    let same = bytes[start..]
        .iter()
        .take_while(|byte| **byte == bytes[start]);
    start + same.count()
}

/// A run of four or more is written as a repetition, with a comma where the next pair starts with a
/// decimal digit.
pub fn write_bytes(bytes: &[u8]) -> String {
    if bytes.is_empty() {
        return "-".to_string();
    }
    let mut text = String::new();
    let mut at = 0;
    while at < bytes.len() {
        let end = run_end(bytes, at);
        if end - at >= 4 {
            text += &format!("{:02x}*{}", bytes[at], end - at);
            if end < bytes.len() && bytes[end] < 0xa0 {
                text += ",";
            }
        } else {
            text.extend(bytes[at..end].iter().map(|byte| format!("{byte:02x}")));
        }
        at = end;
    }
    text
}

#[cfg(test)]
mod tests {
    use super::*;

    #[test]
    fn a_count_belongs_to_the_pair_before_it() {
        assert_eq!(read_bytes("0001*3"), Ok(vec![0, 1, 1, 1]));
        assert_eq!(read_bytes("00*3a0"), Ok(vec![0, 0, 0, 0xa0]));
        assert_eq!(read_bytes("00*3,01"), Ok(vec![0, 0, 0, 1]));
        assert_eq!(read_bytes("00*3,a0"), Ok(vec![0, 0, 0, 0xa0]));
        assert_eq!(read_bytes("00*3,"), Ok(vec![0, 0, 0]));
        assert_eq!(read_bytes("-"), Ok(vec![]));
        for bad in ["", "0", "0g", "AA", "*3", "00*", "00*0", "00-", "00*3*3"] {
            assert!(read_bytes(bad).is_err(), "{bad}");
        }
        for bad in [",", "00,01", "00*,01", "00*3,,01", "00*3,0"] {
            assert!(read_bytes(bad).is_err(), "{bad}");
        }
    }

    #[test]
    fn a_repetition_is_written_with_a_comma_before_a_digit() {
        assert_eq!(write_bytes(&[0; 128]), "00*128");
        assert_eq!(write_bytes(&[0, 0, 0, 0, 0xa0]), "00*4a0");
        assert_eq!(write_bytes(&[0, 0, 0, 0, 1]), "00*4,01");
        assert_eq!(write_bytes(&[1, 1, 1]), "010101");
    }

    #[test]
    fn what_is_written_is_read_back() {
        for first in [0, 1, 0x9f, 0xa0, 0xff] {
            for second in [0, 1, 0x9f, 0xa0, 0xff] {
                for count in 0..20 {
                    let bytes = [vec![first; count], vec![second; 20 - count]].concat();
                    assert_eq!(read_bytes(&write_bytes(&bytes)), Ok(bytes));
                }
            }
        }
    }
}
