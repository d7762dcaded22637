//! From a rule text to a rule file in plain Rust: the same job as tefuji_write, by one pass over the bytes and recursion.

const TEXT_LIMIT: usize = 1024;
const NODE_LIMIT: usize = 64;
const TEMPORAL_LIMIT: usize = 7;
const HEADER: usize = 6;
/// The level of the loosest sign.
const LOOSEST: u8 = 6;

const SIGNAL: u8 = 2;
const UNTIL: u8 = 11;

/// A refusal's number and place.
pub type Refused = (u8, usize);

/// A sign between two operands; level 1 is the tightest.
struct Binary {
    sign: &'static [u8],
    kind: u8,
    level: u8,
    /// The level up to which its right operand may be joined.
    right: u8,
}

const fn binary(sign: &'static [u8], kind: u8, level: u8, right: u8) -> Binary {
    Binary { sign, kind, level, right }
}

static UNTIL_SIGN: Binary = binary(b"U", UNTIL, 1, 1);
static AND: Binary = binary(b"&", 5, 2, 1);
static EXCLUSIVE_OR: Binary = binary(b"^", 9, 3, 2);
static OR: Binary = binary(b"|", 6, 4, 3);
static IMPLIES: Binary = binary(b"->", 7, 5, 5);
static EQUALS: Binary = binary(b"<->", 8, 6, 5);

/// A text that is being read. Where it does not fit, the place is the error.
struct Reader<'a> {
    text: &'a [u8],
    place: usize,
    /// Kind and body of the first nodes.
    nodes: [[u8; 3]; NODE_LIMIT],
    count: usize,
    temporal: usize,
    /// One more than the highest signal.
    signals: u8,
}

impl<'a> Reader<'a> {
    fn new(text: &'a [u8]) -> Self {
        let nodes = [[0; 3]; NODE_LIMIT];
        Reader { text, place: 0, nodes, count: 0, temporal: 0, signals: 0 }
    }

    /// The next byte that is no space.
    fn sign(&mut self) -> Option<u8> {
        while self.text.get(self.place) == Some(&b' ') {
            self.place += 1;
        }
        self.text.get(self.place).copied()
    }

    fn take(&mut self, sign: &[u8]) -> Result<(), usize> {
        for byte in sign {
            if self.text.get(self.place) != Some(byte) {
                return Err(self.place);
            }
            self.place += 1;
        }
        Ok(())
    }

    fn push(&mut self, kind: u8, first: usize, second: usize) -> usize {
        if let Some(node) = self.nodes.get_mut(self.count) {
            *node = [kind, first as u8, second as u8];
        }
        self.temporal += usize::from(kind >= 10);
        self.count += 1;
        self.count - 1
    }

    fn whole(&mut self) -> Result<(), usize> {
        self.joined(LOOSEST)?;
        match self.sign() {
            None => Ok(()),
            Some(_) => Err(self.place),
        }
    }

    /// Operands joined by signs up to this level.
    fn joined(&mut self, loosest: u8) -> Result<usize, usize> {
        let mut left = self.operand()?;
        while let Some(binary) = self.binary().filter(|binary| binary.level <= loosest) {
            self.take(binary.sign)?;
            let right = self.joined(binary.right)?;
            left = self.push(binary.kind, left, right);
        }
        Ok(left)
    }

    /// The sign that the next byte begins.
    fn binary(&mut self) -> Option<&'static Binary> {
        match self.sign()? {
            b'U' => Some(&UNTIL_SIGN),
            b'&' => Some(&AND),
            b'^' => Some(&EXCLUSIVE_OR),
            b'|' => Some(&OR),
            b'-' => Some(&IMPLIES),
            b'<' => Some(&EQUALS),
            _ => None,
        }
    }

    fn operand(&mut self) -> Result<usize, usize> {
        match self.sign() {
            Some(b's') => self.signal(),
            Some(b't') => self.take(b"true").map(|()| self.push(1, 0, 0)),
            Some(b'f') => self.take(b"false").map(|()| self.push(0, 0, 0)),
            Some(b'!') => self.prefixed(4),
            Some(b'X') => self.prefixed(10),
            Some(b'F') => self.prefixed(12),
            Some(b'G') => self.prefixed(13),
            Some(b'(') => self.bracketed(),
            _ => Err(self.place),
        }
    }

    fn signal(&mut self) -> Result<usize, usize> {
        self.place += 1;
        let Some(digit @ b'0'..=b'3') = self.text.get(self.place).copied() else {
            return Err(self.place);
        };
        self.place += 1;
        let signal = digit - b'0';
        self.signals = self.signals.max(signal + 1);
        Ok(self.push(SIGNAL, signal.into(), 0))
    }

    fn prefixed(&mut self, kind: u8) -> Result<usize, usize> {
        self.place += 1;
        let operand = self.operand()?;
        Ok(self.push(kind, operand, 0))
    }

    fn bracketed(&mut self) -> Result<usize, usize> {
        self.place += 1;
        let inner = self.joined(LOOSEST)?;
        self.sign();
        self.take(b")")?;
        Ok(inner)
    }
}

/// How many bytes of body a node of a text has.
fn body(kind: u8) -> usize {
    match kind {
        0 | 1 => 0,
        SIGNAL | 4 | 10 | 12 | 13 => 1,
        _ => 2,
    }
}

pub fn write(text: &[u8], signals: u8, output: &mut [u8]) -> Result<usize, Refused> {
    if text.len() > TEXT_LIMIT {
        return Err((15, TEXT_LIMIT));
    }
    let mut reader = Reader::new(text);
    reader.whole().map_err(|place| (15, place))?;
    let nodes = reader.nodes.get(..reader.count);
    match nodes {
        _ if !(1..=4).contains(&signals) => Err((4, 0)),
        None => Err((16, 0)),
        _ if reader.signals > signals => Err((7, 0)),
        _ if reader.temporal > TEMPORAL_LIMIT => Err((8, 0)),
        Some(nodes) => put(signals, nodes, output),
    }
}

fn put(signals: u8, nodes: &[[u8; 3]], output: &mut [u8]) -> Result<usize, Refused> {
    let length = HEADER + nodes.iter().map(|node| 4 + body(node[0])).sum::<usize>();
    let file = output.get_mut(..length).ok_or((10, 0))?;
    file[..HEADER].copy_from_slice(&[4, 0, 0, 1, signals, nodes.len() as u8]);
    let mut place = HEADER;
    for &[kind, first, second] in nodes {
        let body = body(kind);
        let record = [2 + body as u8, 0, kind, 0, first, second];
        file[place..place + 4 + body].copy_from_slice(&record[..4 + body]);
        place += 4 + body;
    }
    Ok(length)
}
