//! The image of a PNG: its rows, each byte of them unpacked from the file.

use flate2::{Decompress, FlushDecompress, Status};

use super::chunks::Header;

/// The seven images of an interlaced one: first column, step, first row, step.
const PASSES: [[usize; 4]; 7] = [
    [0, 8, 0, 8],
    [4, 8, 0, 8],
    [0, 4, 4, 8],
    [2, 4, 0, 4],
    [0, 2, 2, 4],
    [1, 2, 0, 2],
    [0, 1, 1, 2],
];

/// The stored samples of each row.
pub struct Rows {
    /// A byte before each row was its filter's.
    data: Vec<u8>,
    line: usize,
}

impl Rows {
    /// Unpacks an image that has exactly the rows that IHDR says.
    pub fn read(header: &Header, packed: &[u8]) -> Result<Rows, String> {
        let whole = Pass::whole(header);
        let passes = match header.interlaced {
            false => vec![whole],
            true => PASSES.iter().map(|&places| Pass::of(header, places)).collect(),
        };
        let mut data = unpacked(header, packed, passes.iter().map(Pass::length).sum())?;
        let mut rest = &mut data[..];
        for pass in &passes {
            let (this, after) = rest.split_at_mut(pass.length());
            pass.unfilter(header, this)?;
            rest = after;
        }
        if header.interlaced {
            data = woven(header, &passes, &data);
        }
        Ok(Rows { data, line: whole.line })
    }

    pub fn row(&self, y: usize) -> &[u8] {
        &self.data[y * (self.line + 1) + 1..][..self.line]
    }

    /// Whether `count` rows from `first` on are stored alike: their pixels are then of the same colours.
    pub fn alike(&self, first: usize, count: usize) -> bool {
        (first + 1..first + count).all(|y| self.row(y) == self.row(first))
    }
}

/// Inflates a stream that must end with the bytes that are wanted, and with the bytes that are given. It is given at
/// once: then a distance that goes back before the first byte is an error.
fn unpacked(header: &Header, packed: &[u8], wanted: usize) -> Result<Vec<u8>, String> {
    // one more, so that surplus bytes are seen; they are never unpacked
    let mut data = vec![0; wanted + 1];
    let mut stream = Decompress::new(true);
    let ended = stream.decompress(packed, &mut data, FlushDecompress::Finish);
    let (used, made) = (stream.total_in() as usize, stream.total_out() as usize);
    let size = format!("its {} by {} pixels", header.width, header.height);
    match ended {
        _ if made > wanted => {}
        Ok(Status::StreamEnd) if made < wanted => {
            return Err(format!("the PNG has less image data than {size}; it must end with them"));
        }
        Ok(Status::StreamEnd) if used == packed.len() => {
            data.truncate(wanted);
            return Ok(data);
        }
        Ok(Status::StreamEnd) => {}
        _ => {
            return Err("the PNG cannot be read: its image data are damaged or cut off".to_string())
        }
    }
    Err(format!("the PNG has more image data than {size}; it must end with them"))
}

/// An image that is stored row by row, each with its filter.
#[derive(Clone, Copy)]
struct Pass {
    places: [usize; 4],
    columns: usize,
    rows: usize,
    /// Bytes of a row without its filter's.
    line: usize,
}

impl Pass {
    fn whole(header: &Header) -> Pass {
        Pass::of(header, [0, 1, 0, 1])
    }

    fn of(header: &Header, places: [usize; 4]) -> Pass {
        let [x, across, y, down] = places;
        let count =
            |size: usize, first: usize, step: usize| size.saturating_sub(first).div_ceil(step);
        let columns = count(header.width, x, across);
        let rows = if columns == 0 { 0 } else { count(header.height, y, down) };
        Pass { places, columns, rows, line: (columns * header.bits()).div_ceil(8) }
    }

    fn length(&self) -> usize {
        self.rows * (self.line + 1)
    }

    /// Undoes the filter of each row.
    fn unfilter(&self, header: &Header, data: &mut [u8]) -> Result<(), String> {
        let none = vec![0; self.line];
        let mut above: &[u8] = &none;
        for stored in data.chunks_exact_mut(self.line + 1) {
            let (filter, row) = stored.split_at_mut(1);
            match header.bits() {
                ..=8 => unfilter::<1>(filter[0], above, row),
                16 => unfilter::<2>(filter[0], above, row),
                24 => unfilter::<3>(filter[0], above, row),
                32 => unfilter::<4>(filter[0], above, row),
                48 => unfilter::<6>(filter[0], above, row),
                _ => unfilter::<8>(filter[0], above, row),
            }?;
            above = row;
        }
        Ok(())
    }
}

/// Undoes a filter whose samples to the left are N bytes before.
fn unfilter<const N: usize>(filter: u8, above: &[u8], row: &mut [u8]) -> Result<(), String> {
    match filter {
        0 => {}
        1 => add::<N>(above, row, |left, _, _| left),
        2 => row.iter_mut().zip(above).for_each(|(now, above)| *now = now.wrapping_add(*above)),
        3 => {
            add::<N>(above, row, |left, above, _| ((u16::from(left) + u16::from(above)) / 2) as u8)
        }
        4 => add::<N>(above, row, paeth),
        _ => return Err(format!("the PNG has a row of filter {filter}; filters are 0 to 4")),
    }
    Ok(())
}

/// Adds to each byte what comes of the bytes to the left, above, and above to the left.
fn add<const N: usize>(above: &[u8], row: &mut [u8], of: impl Fn(u8, u8, u8) -> u8) {
    let (mut left, mut corner) = ([0; N], [0; N]);
    for (now, above) in row.chunks_exact_mut(N).zip(above.chunks_exact(N)) {
        for n in 0..N {
            now[n] = now[n].wrapping_add(of(left[n], above[n], corner[n]));
            (left[n], corner[n]) = (now[n], above[n]);
        }
    }
}

/// Of the samples to the left, above, and above to the left, the one nearest to left + above - corner.
fn paeth(left: u8, above: u8, corner: u8) -> u8 {
    let [a, b, c] = [left, above, corner].map(i16::from);
    let [pa, pb, pc] = [b - c, a - c, a + b - 2 * c].map(i16::abs);
    if pa <= pb && pa <= pc {
        left
    } else if pb <= pc {
        above
    } else {
        corner
    }
}

/// The rows of an interlaced image.
fn woven(header: &Header, passes: &[Pass], data: &[u8]) -> Vec<u8> {
    let bits = header.bits();
    let whole = Pass::whole(header);
    let mut all = vec![0; whole.length()];
    let mut rest = data;
    for pass in passes {
        let [x, across, y, down] = pass.places;
        let (this, after) = rest.split_at(pass.length());
        for (n, stored) in this.chunks_exact(pass.line + 1).enumerate() {
            let row = &mut all[(y + n * down) * (whole.line + 1) + 1..][..whole.line];
            (0..pass.columns).for_each(|i| put(row, x + i * across, &stored[1..], i, bits));
        }
        rest = after;
    }
    all
}

/// Puts pixel `i` of a row where pixel `at` of another is, which is 0 there.
fn put(row: &mut [u8], at: usize, from: &[u8], i: usize, bits: usize) {
    if bits >= 8 {
        let bytes = bits / 8;
        row[at * bytes..][..bytes].copy_from_slice(&from[i * bytes..][..bytes]);
        return;
    }
    let low = |i: usize| 8 - bits - i * bits % 8;
    let pixel = from[i * bits / 8] >> low(i) & ((1 << bits) - 1);
    row[at * bits / 8] |= pixel << low(at);
}
