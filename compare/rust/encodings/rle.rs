//! Stand-in: a level encoder that writes one bit-packed run, which the format's RLE encoding admits. The header is
//! 2 * groups + 1 in ULEB128; a group has eight levels, least significant bit first, and the last group is filled with 0.
//! It says that it accumulates a run after eight equal levels, so that the callers' counts of runs are compared too.

pub struct RleEncoder {
    width: u8,
    levels: Vec<u64>,
    current: u64,
    repeats: usize,
    buffer: Vec<u8>,
}

impl RleEncoder {
    pub fn new_from_buf(bit_width: u8, buffer: Vec<u8>) -> Self {
        RleEncoder {
            width: bit_width,
            levels: vec![],
            current: 0,
            repeats: 0,
            buffer,
        }
    }

    pub fn put(&mut self, value: u64) {
        self.repeats = if self.repeats > 0 && self.current == value {
            self.repeats + 1
        } else {
            1
        };
        self.current = value;
        self.levels.push(value);
    }

    pub fn is_accumulating_rle(&self, value: u64) -> bool {
        self.current == value && self.repeats >= 8
    }

    pub fn extend_run(&mut self, count: usize) {
        self.repeats += count;
        self.levels.extend(std::iter::repeat_n(self.current, count));
    }

    pub fn skip(&mut self, bytes: usize) {
        self.buffer.resize(self.buffer.len() + bytes, 0);
    }

    pub fn clear(&mut self) {
        self.buffer.clear();
        self.levels.clear();
        self.repeats = 0;
    }

    pub fn flush_buffer(&mut self) -> &[u8] {
        self.flush_buffer_mut()
    }

    pub fn flush_buffer_mut(&mut self) -> &mut Vec<u8> {
        let groups = self.levels.len().div_ceil(8);
        let mut header = 2 * groups + 1;
        while header >= 0x80 {
            self.buffer.push(header as u8 & 0x7F | 0x80);
            header >>= 7;
        }
        self.buffer.push(header as u8);
        // As the crate's own encoder does, a group at a time: at most 8 levels of at most 4 bits.
        let width = usize::from(self.width);
        for group in self.levels.chunks(8) {
            let levels = group.iter().rev();
            let word = levels.fold(0, |word, level| word << width | (level & ((1 << width) - 1)));
            self.buffer.extend_from_slice(&u64::to_le_bytes(word)[..width]);
        }
        self.levels.clear();
        self.repeats = 0;
        &mut self.buffer
    }

    pub fn consume(mut self) -> Vec<u8> {
        self.flush_buffer_mut();
        self.buffer
    }
}
