//! The chunks of a PNG. Each is known by its name: one that is not, or that stands where it may not, is refused.

use std::borrow::Cow;

use flate2::Crc;

const SIGNATURE: &[u8] = b"\x89PNG\r\n\x1a\n";

/// Chunks that change no sample: name, the last place where one may stand, and whether it may stand more than once.
const PASSED: [(&[u8; 4], Place, bool); 13] = [
    (b"cHRM", Place::Head, false),
    (b"gAMA", Place::Head, false),
    (b"iCCP", Place::Head, false),
    (b"sBIT", Place::Head, false),
    (b"sRGB", Place::Head, false),
    (b"bKGD", Place::Palette, false),
    (b"hIST", Place::Palette, false),
    (b"pHYs", Place::Palette, false),
    (b"sPLT", Place::Palette, true),
    (b"tIME", Place::End, false),
    (b"tEXt", Place::End, true),
    (b"zTXt", Place::End, true),
    (b"iTXt", Place::End, true),
];

/// Chunks that must not come before PLTE.
const AFTER_PALETTE: [&[u8; 4]; 3] = [b"tRNS", b"bKGD", b"hIST"];

/// How far the chunks have come: before PLTE, before the image, in it, after it.
#[derive(Clone, Copy, PartialEq, PartialOrd)]
enum Place {
    Head,
    Palette,
    Image,
    End,
}

#[derive(Clone, Copy, Debug, PartialEq, Eq)]
pub enum Colour {
    Grey,
    Rgb,
    Indexed,
    GreyAlpha,
    Rgba,
}

impl Colour {
    /// Samples of a pixel.
    pub fn samples(self) -> usize {
        match self {
            Colour::Grey | Colour::Indexed => 1,
            Colour::GreyAlpha => 2,
            Colour::Rgb => 3,
            Colour::Rgba => 4,
        }
    }
}

/// What IHDR says.
#[derive(Clone, Copy)]
pub struct Header {
    pub width: usize,
    pub height: usize,
    /// Bits of a sample.
    pub depth: usize,
    pub colour: Colour,
    pub interlaced: bool,
}

/// A PNG's chunks, those that change no sample left out.
pub struct Chunks<'a> {
    pub header: Header,
    pub palette: &'a [u8],
    /// The contents of tRNS; empty where there is none.
    pub transparent: &'a [u8],
    /// The compressed image.
    pub image: Cow<'a, [u8]>,
    place: Place,
    /// The names of chunks so far of which there may be one.
    seen: Vec<[u8; 4]>,
}

struct Chunk<'a> {
    name: [u8; 4],
    data: &'a [u8],
}

/// The last place where a chunk may stand, and whether it may stand more than once.
fn rule(name: [u8; 4]) -> Result<(Place, bool), String> {
    if let Some(&(_, last, often)) = PASSED.iter().find(|known| *known.0 == name) {
        return Ok((last, often));
    }
    let text = name.escape_ascii();
    match &name {
        b"PLTE" => Ok((Place::Head, false)),
        b"tRNS" => Ok((Place::Palette, false)),
        b"IDAT" => Ok((Place::Image, true)),
        b"IHDR" => Err(two(name)),
        b"acTL" | b"fcTL" | b"fdAT" => {
            Err(format!("the PNG is an animation (chunk {text}); a capture is one picture"))
        }
        _ => Err(format!(
            "the PNG has a chunk {text}, which may change its picture; a capture must not have one"
        )),
    }
}

fn two(name: [u8; 4]) -> String {
    format!("the PNG has two chunks {}; it may have one", name.escape_ascii())
}

impl<'a> Chunks<'a> {
    /// Goes through all of them. `fits` says whether IHDR's width and height are those of a capture; it is asked first.
    pub fn read(
        bytes: &'a [u8],
        fits: impl Fn(usize, usize) -> Result<(), String>,
    ) -> Result<Chunks<'a>, String> {
        let mut rest = bytes
            .strip_prefix(SIGNATURE)
            .ok_or("the PNG cannot be read: it does not begin with a PNG's eight bytes")?;
        let first = Chunk::next(&mut rest)?;
        if first.name != *b"IHDR" {
            return Err(format!(
                "the PNG begins with a chunk {}; it must be IHDR",
                first.name.escape_ascii()
            ));
        }
        let header = Header::read(first.data, fits)?;
        let (image, place) = (Cow::Borrowed(&[][..]), Place::Head);
        let (palette, transparent, seen) = (&[][..], &[][..], vec![first.name]);
        let mut found = Chunks { header, palette, transparent, image, place, seen };
        loop {
            let chunk = Chunk::next(&mut rest)?;
            if chunk.name == *b"IEND" {
                found.end(chunk.data, rest)?;
                return Ok(found);
            }
            found.add(chunk)?;
        }
    }

    fn add(&mut self, Chunk { name, data }: Chunk<'a>) -> Result<(), String> {
        let text = name.escape_ascii();
        let (last, often) = rule(name)?;
        if self.place == Place::Image && name != *b"IDAT" {
            self.place = Place::End;
        }
        if self.place > last {
            return Err(match (&name, self.place) {
                (b"IDAT", _) => "the PNG's image has a chunk in between; it must not".to_string(),
                (_, Place::Palette) if name == *b"PLTE" => two(name),
                (_, Place::Palette) => {
                    format!("the PNG has a chunk {text} after its PLTE; it must come before")
                }
                _ => format!("the PNG has a chunk {text} after its image; it must come before"),
            });
        }
        if !often {
            if self.seen.contains(&name) {
                return Err(two(name));
            }
            self.seen.push(name);
        }
        match &name {
            b"IDAT" => self.add_image(data),
            b"PLTE" => self.set_palette(data),
            b"tRNS" => self.set_transparent(data),
            _ => Ok(()),
        }
    }

    fn add_image(&mut self, data: &'a [u8]) -> Result<(), String> {
        if self.header.colour == Colour::Indexed && self.palette.is_empty() {
            return Err(
                "the PNG has indices and no PLTE; it must come before the image".to_string()
            );
        }
        match self.place {
            Place::Image => self.image.to_mut().extend_from_slice(data),
            _ => self.image = Cow::Borrowed(data),
        }
        self.place = Place::Image;
        Ok(())
    }

    fn set_palette(&mut self, data: &'a [u8]) -> Result<(), String> {
        if let Some(name) = AFTER_PALETTE.iter().find(|&&name| self.seen.contains(name)) {
            let name = name.escape_ascii();
            return Err(format!("the PNG has a chunk {name} before its PLTE; it must come after"));
        }
        if matches!(self.header.colour, Colour::Grey | Colour::GreyAlpha) {
            return Err("the PNG is grey and has a PLTE; it must have none".to_string());
        }
        let most = match self.header.colour {
            Colour::Indexed => 1 << self.header.depth,
            _ => 256,
        };
        if data.is_empty() || !data.len().is_multiple_of(3) || data.len() > 3 * most {
            let length = vb::grouped(data.len() as u64);
            return Err(format!(
                "the PNG's PLTE has {length} bytes; it must have three for each of 1 to {most} colours"
            ));
        }
        (self.palette, self.place) = (data, Place::Palette);
        Ok(())
    }

    fn set_transparent(&mut self, data: &'a [u8]) -> Result<(), String> {
        let allowed = match self.header.colour {
            Colour::Grey => 2..=2,
            Colour::Rgb => 6..=6,
            Colour::Indexed if self.palette.is_empty() => {
                return Err(
                    "the PNG has a chunk tRNS before its PLTE; it must come after".to_string()
                );
            }
            Colour::Indexed => 1..=self.palette.len() / 3,
            Colour::GreyAlpha | Colour::Rgba => {
                return Err("the PNG has alpha and a tRNS; it must have one of them".to_string());
            }
        };
        if !allowed.contains(&data.len()) {
            let (least, most) = allowed.into_inner();
            let range =
                if least == most { least.to_string() } else { format!("{least} to {most}") };
            let length = vb::grouped(data.len() as u64);
            return Err(format!("the PNG's tRNS has {length} bytes; it must have {range}"));
        }
        let keyed = self.header.colour != Colour::Indexed;
        let above = |key: &[u8]| u32::from(key[0]) << 8 | u32::from(key[1]);
        if keyed && data.chunks_exact(2).any(|key| above(key) >> self.header.depth != 0) {
            return Err(format!(
                "the PNG's tRNS has a sample of more than its {} bits, which readers do not take alike",
                self.header.depth
            ));
        }
        self.transparent = data;
        Ok(())
    }

    /// IEND: an image has come, and nothing follows.
    fn end(&self, data: &[u8], rest: &[u8]) -> Result<(), String> {
        if self.place < Place::Image {
            return Err("the PNG has no image (no chunk IDAT)".to_string());
        }
        if !data.is_empty() {
            return Err("the PNG's IEND has contents; it must be empty".to_string());
        }
        if !rest.is_empty() {
            let more = vb::grouped(rest.len() as u64);
            return Err(format!("{more} bytes follow the PNG's IEND; it must be the file's end"));
        }
        Ok(())
    }
}

impl<'a> Chunk<'a> {
    /// Takes the next one off the rest of a file.
    fn next(rest: &mut &'a [u8]) -> Result<Chunk<'a>, String> {
        let (head, after) = rest
            .split_first_chunk::<8>()
            .ok_or("the PNG cannot be read: it ends before its IEND")?;
        let [a, b, c, d, name @ ..] = *head;
        let text = name.escape_ascii();
        let length = u32::from_be_bytes([a, b, c, d]) as usize;
        let cut = || format!("the PNG cannot be read: it ends inside its chunk {text}");
        let (data, after) = after.split_at_checked(length).ok_or_else(cut)?;
        let (sum, after) = after.split_first_chunk::<4>().ok_or_else(cut)?;
        let mut crc = Crc::new();
        crc.update(&name);
        crc.update(data);
        if crc.sum() != u32::from_be_bytes(*sum) {
            return Err(format!("the PNG cannot be read: the CRC of its chunk {text} is wrong"));
        }
        *rest = after;
        Ok(Chunk { name, data })
    }
}

impl Header {
    /// Bits of a pixel.
    pub fn bits(&self) -> usize {
        self.colour.samples() * self.depth
    }

    fn read(
        data: &[u8],
        fits: impl Fn(usize, usize) -> Result<(), String>,
    ) -> Result<Header, String> {
        let bytes: &[u8; 13] = data.try_into().map_err(|_| {
            format!("the PNG's IHDR has {} bytes; it must have 13", vb::grouped(data.len() as u64))
        })?;
        let [a, b, c, d, e, f, g, h, depth, colour, method, filter, interlace] = *bytes;
        let width = u32::from_be_bytes([a, b, c, d]) as usize;
        let height = u32::from_be_bytes([e, f, g, h]) as usize;
        fits(width, height)?;
        let colour = match (colour, depth) {
            (0, 1 | 2 | 4 | 8 | 16) => Colour::Grey,
            (2, 8 | 16) => Colour::Rgb,
            (3, 1 | 2 | 4 | 8) => Colour::Indexed,
            (4, 8 | 16) => Colour::GreyAlpha,
            (6, 8 | 16) => Colour::Rgba,
            _ => {
                return Err(format!(
                    "the PNG's IHDR has colour type {colour} of {depth} bits, which no PNG has"
                ));
            }
        };
        if (method, filter) != (0, 0) || interlace > 1 {
            return Err(format!(
                "the PNG's IHDR has compression {method}, filter {filter}, interlace {interlace}; they must be 0, 0, and 0 or 1"
            ));
        }
        Ok(Header { width, height, depth: usize::from(depth), colour, interlaced: interlace == 1 })
    }
}
