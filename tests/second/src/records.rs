/// Eight bytes of a rule or a table. In a rule a, b, c are its p, q, r.
#[derive(Clone, Copy, PartialEq, Eq, Debug)]
pub struct Record {
    pub kind: u8,
    pub op: u8,
    pub a: u16,
    pub b: u16,
    pub c: u16,
}

impl Record {
    pub fn from_bytes(bytes: [u8; 8]) -> Record {
        let [kind, op, a0, a1, b0, b1, c0, c1] = bytes;
        Record {
            kind,
            op,
            a: u16::from_le_bytes([a0, a1]),
            b: u16::from_le_bytes([b0, b1]),
            c: u16::from_le_bytes([c0, c1]),
        }
    }

    pub fn to_bytes(self) -> [u8; 8] {
        let [a0, a1] = self.a.to_le_bytes();
        let [b0, b1] = self.b.to_le_bytes();
        let [c0, c1] = self.c.to_le_bytes();
        [self.kind, self.op, a0, a1, b0, b1, c0, c1]
    }
}

/// The whole records of a byte string; bytes over at the end are passed by.
pub fn records(bytes: &[u8]) -> impl Iterator<Item = Record> + '_ {
    bytes.chunks_exact(8).map(|chunk| {
        let mut eight = [0; 8];
        eight.copy_from_slice(chunk);
        Record::from_bytes(eight)
    })
}
