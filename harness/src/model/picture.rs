//! Document 02, Wish 11, "Residuals as pictures": a block as a binary graymap, written and read back.

use super::call::is_size;

/// What writing hands back: the number, and how many bytes the file has.
#[derive(Clone, Copy, Debug, PartialEq, Eq)]
pub struct Written {
    pub number: i64,
    pub bytes: usize,
}

/// What reading hands back: the number, and the sides that the header gives.
#[derive(Clone, Copy, Debug, PartialEq, Eq)]
pub struct Picture {
    pub number: i64,
    pub width: i64,
    pub height: i64,
}

/// "P5, then w and h, then 65535: lines ended by byte 0A, one space inside", then "the residual plus 32768, high byte first".
fn file_of(width: i64, height: i64, residuals: &[i64]) -> Vec<u8> {
    let mut file = format!("P5\n{width} {height}\n65535\n").into_bytes();
    for z in residuals {
        let sample = u16::try_from(z + 32768).expect("a residual in range");
        file.extend(sample.to_be_bytes());
    }
    file
}

/// "writing, 1, 2, 6, then 23 .., then 7 for an output too short to hold the file"; "bytes beyond the file stay".
pub fn write_picture(width: i64, height: i64, residuals: &[i64], out: &mut [u8]) -> Written {
    let refused = |number| Written { number, bytes: 0 };
    if !is_size(width) {
        return refused(1);
    }
    if !is_size(height) {
        return refused(2);
    }
    if residuals.len() as i64 != width * height {
        return refused(6);
    }
    if residuals.iter().any(|z| !(-32768..=32767).contains(z)) {
        return refused(23);
    }
    let file = file_of(width, height, residuals);
    let Some(start) = out.get_mut(..file.len()) else {
        return refused(7);
    };
    start.copy_from_slice(&file);
    let bytes = file.len();
    Written { number: 0, bytes }
}

/// The bytes of a header, of which a comment, from # to the end of its line, counts as that end.
struct Header<'a> {
    file: &'a [u8],
    at: usize,
}

impl Header<'_> {
    fn raw(&mut self) -> Option<u8> {
        let byte = self.file.get(self.at).copied();
        self.at += 1;
        byte
    }

    fn next(&mut self) -> Option<u8> {
        let mut byte = self.raw()?;
        if byte == b'#' {
            while byte != b'\n' && byte != b'\r' {
                byte = self.raw()?;
            }
        }
        Some(byte)
    }

    /// A number, the white space before it but for the first byte, and the byte of white space behind it.
    fn number(&mut self) -> Option<u64> {
        let mut byte = self.next()?;
        while is_space(byte) {
            byte = self.next()?;
        }
        let mut number = None;
        while byte.is_ascii_digit() {
            let digit = u64::from(byte - b'0');
            number = Some((number.unwrap_or(0u64) * 10 + digit).min(1_000_000));
            byte = self.next()?;
        }
        number.filter(|_| is_space(byte))
    }

    /// P5, white space, and the three numbers.
    fn numbers(&mut self) -> Option<[u64; 3]> {
        if [self.raw()?, self.raw()?] != *b"P5" || !is_space(self.next()?) {
            return None;
        }
        Some([self.number()?, self.number()?, self.number()?])
    }
}

fn is_space(byte: u8) -> bool {
    [b' ', b'\t', b'\n', b'\r'].contains(&byte)
}

/// "24 for a header that isn't such a graymap, or sizes that 1 and 2 would refuse, then 25 for too few or too many samples,
/// then 7". The sides of a header that is one are handed back with 25 and 7 too.
pub fn read_picture(file: &[u8], out: &mut [i64]) -> Picture {
    let mut header = Header { file, at: 0 };
    let (width, height) = match header.numbers() {
        Some([w, h, 65535]) if is_size(w as i64) && is_size(h as i64) => (w as i64, h as i64),
        _ => {
            return Picture {
                number: 24,
                width: 0,
                height: 0,
            }
        }
    };
    let samples = &file[header.at..];
    let answer = |number| Picture {
        number,
        width,
        height,
    };
    if samples.len() as i64 != 2 * width * height {
        return answer(25);
    }
    if out.len() as i64 != width * height {
        return answer(7);
    }
    for (z, sample) in out.iter_mut().zip(samples.chunks_exact(2)) {
        *z = i64::from(u16::from_be_bytes([sample[0], sample[1]])) - 32768;
    }
    answer(0)
}

#[cfg(test)]
mod tests {
    use super::*;

    fn number(header: &[u8]) -> i64 {
        let mut file = header.to_vec();
        file.extend([0; 32]);
        read_picture(&file, &mut [0; 16]).number
    }

    #[test]
    fn headers() {
        for header in [
            b"P5\n4 4\n65535\n".as_slice(),
            b"P5 4 4 65535 ",
            b"P5\t4\t4\t65535\t",
            b"P5\r4 4\r65535\r",
            b"P5\n# c\n4 4\n65535\n",
            b"P5\n# c\r4 4\n65535\n",
            b"P5\n4# w\n4\n65535\n",
            b"P5\n4 4\n65535# c\n",
            b"P5#c\n4 4\n65535\n",
            b"P5\n004 0004\n0065535\n",
        ] {
            assert_eq!(number(header), 0, "{header:?}");
        }
        for header in [
            b"P54 4\n65535\n".as_slice(),
            b"P5\n4 4\n65#\n535\n",
            b"P5\n4 4\n65536\n",
            b"P5\n4 4\n255\n",
            b"P5\n4 4\n65535x",
            b"P5\x0b4 4\n65535\n",
            b"P5\n+4 4\n65535\n",
            b"P5\n5 4\n65535\n",
            b"P2\n4 4\n65535\n",
        ] {
            assert_eq!(number(header), 24, "{header:?}");
        }
        // one byte of white space behind the maximum value: of CR LF the LF is a sample's
        assert_eq!(number(b"P5\n4 4\n65535\r\n"), 25);
    }

    #[test]
    fn written_and_read() {
        let block: Vec<i64> = (0..16).map(|k| k * 4369 - 32768).collect();
        let mut file = [7; 50];
        let written = write_picture(4, 4, &block, &mut file);
        assert_eq!((written.number, written.bytes), (0, 45));
        assert_eq!(file[45..], [7; 5]);
        let mut back = [0; 16];
        assert_eq!(read_picture(&file[..45], &mut back).number, 0);
        assert_eq!(back[..], block);
    }
}
