//! Big-endian fields: a reader that answers `None` past the end, and a writer.

pub struct Reader<'a> {
    left: &'a [u8],
}

impl<'a> Reader<'a> {
    pub fn new(bytes: &'a [u8]) -> Self {
        Reader { left: bytes }
    }

    pub fn left(&self) -> usize {
        self.left.len()
    }

    pub fn bytes(&mut self, count: usize) -> Option<&'a [u8]> {
        let (head, tail) = self.left.split_at_checked(count)?;
        self.left = tail;
        Some(head)
    }

    pub fn u8(&mut self) -> Option<u8> {
        self.bytes(1).map(|b| b[0])
    }

    pub fn u16(&mut self) -> Option<u16> {
        let bytes = self.bytes(2)?;
        bytes.try_into().ok().map(u16::from_be_bytes)
    }

    pub fn u32(&mut self) -> Option<u32> {
        let bytes = self.bytes(4)?;
        bytes.try_into().ok().map(u32::from_be_bytes)
    }

    pub fn u64(&mut self) -> Option<u64> {
        let bytes = self.bytes(8)?;
        bytes.try_into().ok().map(u64::from_be_bytes)
    }

    /// A `u32` that counts or indexes.
    pub fn size(&mut self) -> Option<usize> {
        self.u32().map(|v| v as usize)
    }

    pub fn f32(&mut self) -> Option<f32> {
        self.u32().map(f32::from_bits)
    }

    pub fn f64(&mut self) -> Option<f64> {
        self.u64().map(f64::from_bits)
    }

    /// `count` fields, each read by `field`.
    pub fn many<T>(
        &mut self,
        count: usize,
        field: impl Fn(&mut Self) -> Option<T>,
    ) -> Option<Vec<T>> {
        (0..count).map(|_| field(self)).collect()
    }

    /// Fields until the end, which must come at the end of one.
    pub fn rest<T>(&mut self, field: impl Fn(&mut Self) -> Option<T>) -> Option<Vec<T>> {
        let mut out = Vec::new();
        while !self.left.is_empty() {
            out.push(field(self)?);
        }
        Some(out)
    }
}

#[derive(Default)]
pub struct Writer {
    pub bytes: Vec<u8>,
}

impl Writer {
    pub fn new() -> Self {
        Writer::default()
    }

    pub fn u8(mut self, v: u8) -> Self {
        self.bytes.push(v);
        self
    }

    pub fn u32(mut self, v: u32) -> Self {
        self.bytes.extend(v.to_be_bytes());
        self
    }

    pub fn u64(mut self, v: u64) -> Self {
        self.bytes.extend(v.to_be_bytes());
        self
    }

    /// A count or an index.
    pub fn size(self, v: usize) -> Self {
        self.u32(u32::try_from(v).expect("counts and indexes fit 32 bits"))
    }

    /// An input: its own bits, of a NaN too.
    pub fn f32(self, v: f32) -> Self {
        self.u32(v.to_bits())
    }

    pub fn f64(self, v: f64) -> Self {
        self.u64(v.to_bits())
    }

    /// An answer: every NaN is written alike, since Rust leaves open which one comes out.
    pub fn answer(self, v: f32) -> Self {
        self.u32(if v.is_nan() { 0x7fc0_0000 } else { v.to_bits() })
    }

    pub fn answer64(self, v: f64) -> Self {
        self.u64(if v.is_nan() {
            0x7ff8 << 48
        } else {
            v.to_bits()
        })
    }

    /// One field for each of `xs`, written by `field`.
    pub fn each<T>(
        self,
        xs: impl IntoIterator<Item = T>,
        field: impl FnMut(Self, T) -> Self,
    ) -> Self {
        xs.into_iter().fold(self, field)
    }
}

/// `3f800000 00..` in one word of hex.
pub fn hex(bytes: &[u8]) -> String {
    bytes.iter().map(|b| format!("{b:02x}")).collect()
}
