//! `BufMut::put` of a slice into a vector.

pub trait BufMut {
    fn put(&mut self, bytes: &[u8]);
}

impl BufMut for Vec<u8> {
    fn put(&mut self, bytes: &[u8]) {
        self.extend_from_slice(bytes);
    }
}
