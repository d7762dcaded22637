//! Records: a two-byte length counting all that follows it, a two-byte kind
//! and a body, low bytes first.

use crate::refusal::Refusal;

/// One whole record of a rule file.
#[derive(Debug, PartialEq, Eq)]
pub struct Record<'a> {
    pub start: usize,
    pub kind: u16,
    pub body: &'a [u8],
}

impl<'a> Record<'a> {
    /// Reads the record at `start`, which is at most the length of the file.
    pub fn read(file: &'a [u8], start: usize) -> Result<Self, Refusal> {
        let Some((length, rest)) = split_u16(&file[start..]) else {
            return Err(Refusal::new(1, start));
        };
        if length < 2 {
            return Err(Refusal::new(2, start));
        }
        let Some(content) = rest.get(..usize::from(length)) else {
            return Err(Refusal::new(1, start));
        };
        let kind = u16::from_le_bytes([content[0], content[1]]);
        let body = &content[2..];
        Ok(Record { start, kind, body })
    }

    /// The place of the first byte after the record.
    pub fn end(&self) -> usize {
        self.start + 4 + self.body.len()
    }
}

fn split_u16(bytes: &[u8]) -> Option<(u16, &[u8])> {
    let (number, rest) = bytes.split_first_chunk()?;
    Some((u16::from_le_bytes(*number), rest))
}

/// A record with the length that its body has.
pub fn well_sized(kind: u16, body: &[u8]) -> Vec<u8> {
    let length = u16::try_from(body.len() + 2).expect("a body fits its record");
    claiming(length, kind, body)
}

/// A record that claims any length, right or wrong.
pub fn claiming(length: u16, kind: u16, body: &[u8]) -> Vec<u8> {
    let mut bytes = length.to_le_bytes().to_vec();
    bytes.extend(kind.to_le_bytes());
    bytes.extend(body);
    bytes
}

#[cfg(test)]
mod tests {
    use super::*;

    #[test]
    fn reads_back_what_was_written() {
        let file = well_sized(256, &[1, 1]);
        assert_eq!(file, [4, 0, 0, 1, 1, 1]);
        let record = Record::read(&file, 0).unwrap();
        assert_eq!((record.kind, record.body), (256, &[1, 1][..]));
        assert_eq!(record.end(), file.len());
    }

    #[test]
    fn judges_the_length_in_order() {
        let refusal = |file: &[u8]| Record::read(file, 0).unwrap_err();
        assert_eq!(refusal(&[]), Refusal::new(1, 0));
        assert_eq!(refusal(&[0]), Refusal::new(1, 0));
        assert_eq!(refusal(&[1, 0]), Refusal::new(2, 0));
        assert_eq!(refusal(&[2, 0, 0]), Refusal::new(1, 0));
        assert_eq!(refusal(&[0, 1, 0, 0]), Refusal::new(1, 0));
    }
}
