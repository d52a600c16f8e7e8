//! The tool driven from the command line, each test in a separate folder.
#![allow(dead_code)]

use std::fs;
use std::io::Write;
use std::path::{Path, PathBuf};
use std::process::{Command, Output, Stdio};

pub const WIDTH: usize = 384;
pub const HEIGHT: usize = 224;

/// A temporary folder, removed at the end.
pub struct Folder(PathBuf);

impl Folder {
    pub fn new(name: &str) -> Folder {
        let path = Path::new(env!("CARGO_TARGET_TMPDIR")).join(name);
        let _ = fs::remove_dir_all(&path);
        fs::create_dir_all(&path).unwrap();
        Folder(path)
    }

    pub fn path(&self, name: &str) -> PathBuf {
        self.0.join(name)
    }

    pub fn write(&self, name: &str, bytes: &[u8]) {
        fs::write(self.path(name), bytes).unwrap();
    }

    pub fn read(&self, name: &str) -> Vec<u8> {
        fs::read(self.path(name)).unwrap_or_else(|error| panic!("{name}: {error}"))
    }

    /// What lies in the folder, by name; folders with a slash.
    pub fn names(&self) -> Vec<String> {
        let mut names: Vec<String> = fs::read_dir(&self.0)
            .unwrap()
            .map(|entry| {
                let entry = entry.unwrap();
                let slash = if entry.path().is_dir() { "/" } else { "" };
                format!("{}{slash}", entry.file_name().to_string_lossy())
            })
            .collect();
        names.sort();
        names
    }

    /// Runs the tool here with arguments as one types them.
    pub fn vbmodel(&self, arguments: &str) -> Ran {
        let output = Command::new(env!("CARGO_BIN_EXE_vbmodel"))
            .args(arguments.split_whitespace())
            .current_dir(&self.0)
            .output()
            .unwrap();
        Ran::of(output)
    }

    /// Runs the tool here with these arguments.
    pub fn vbmodel_with(&self, arguments: &[String]) -> Ran {
        let output = Command::new(env!("CARGO_BIN_EXE_vbmodel"))
            .args(arguments)
            .current_dir(&self.0)
            .output()
            .unwrap();
        Ran::of(output)
    }

    /// Runs the tool here with bytes at its standard input.
    pub fn vbmodel_fed(&self, arguments: &str, bytes: &[u8]) -> Ran {
        let mut child = Command::new(env!("CARGO_BIN_EXE_vbmodel"))
            .args(arguments.split_whitespace())
            .current_dir(&self.0)
            .stdin(Stdio::piped())
            .stdout(Stdio::piped())
            .stderr(Stdio::piped())
            .spawn()
            .unwrap();
        // a tool that refuses may have closed its end already
        let _ = child.stdin.take().unwrap().write_all(bytes);
        Ran::of(child.wait_with_output().unwrap())
    }

    /// Runs a line of shell here, the tool's path being in $VB.
    pub fn shell(&self, line: &str) -> Ran {
        let output = Command::new("sh")
            .args(["-c", line])
            .env("VB", env!("CARGO_BIN_EXE_vbmodel"))
            .current_dir(&self.0)
            .output()
            .unwrap();
        Ran::of(output)
    }

    /// The commands as the help lists them.
    pub fn commands(&self) -> Vec<String> {
        let help = self.vbmodel("--help").text;
        let lines = help.lines().skip_while(|line| *line != "Commands:").skip(1);
        let names: Vec<String> = lines
            .map_while(|line| line.strip_prefix("  "))
            .filter_map(|line| line.split_whitespace().next().map(str::to_string))
            .filter(|name| name != "help")
            .collect();
        assert!(names.len() >= 14, "{help}");
        names
    }

    /// What a line of shell shows here on a terminal, which `script` stands in for; none where that is not installed. The
    /// tool's path is in $VB.
    pub fn terminal(&self, line: &str) -> Option<String> {
        let shown = Command::new("script")
            .args(["-qec", line, "/dev/null"])
            .env("VB", env!("CARGO_BIN_EXE_vbmodel"))
            .current_dir(&self.0)
            .output();
        shown.ok().map(|shown| String::from_utf8(shown.stdout).unwrap())
    }

    /// The first budget, with what the terminal shows, whose command shows such a text: a machine may be too fast for a
    /// line of progress at 100 million instructions. A command that lasted ten seconds is the last one tried.
    pub fn terminal_until(
        &self,
        shown: &str,
        line: impl Fn(u64) -> String,
    ) -> Option<(u64, String)> {
        let mut budget = 100_000_000;
        loop {
            let begun = std::time::Instant::now();
            let text = self.terminal(&line(budget))?;
            if text.contains(shown) || begun.elapsed().as_secs() >= 10 {
                return Some((budget, text));
            }
            budget *= 4;
        }
    }

    /// A folder with `a.rom`: code at the reset address, and handlers of the five levels of interrupts.
    pub fn with_rom(name: &str, code: &[u16], handler: &[u16]) -> Folder {
        let folder = Folder::new(name);
        let mut rom = vec![0; 1024];
        let mut put = |at: usize, code: &[u16]| {
            for (bytes, half) in rom[at..].chunks_mut(2).zip(code) {
                bytes.copy_from_slice(&half.to_le_bytes());
            }
        };
        put(0x3F0, code);
        (0..5).for_each(|level| put(0x200 + 16 * level, handler));
        folder.write("a.rom", &rom);
        folder
    }

    /// Runs the demo into `out` and leaves its files there.
    pub fn with_demo(name: &str) -> Folder {
        let folder = Folder::new(name);
        assert_eq!(folder.vbmodel("demo --scale 1").status, 0);
        folder
    }

    /// Runs a command that must be refused with this message, and leave the folder as it was.
    pub fn refused(&self, arguments: &str, message: &str) {
        let before = self.names();
        let ran = self.vbmodel(arguments);
        assert_eq!((ran.status, ran.error.trim_end()), (2, message), "vbmodel {arguments}");
        assert_eq!(ran.text, "", "vbmodel {arguments}");
        assert_eq!(self.names(), before, "vbmodel {arguments} wrote something");
    }
}

impl Drop for Folder {
    fn drop(&mut self) {
        let _ = fs::remove_dir_all(&self.0);
    }
}

pub struct Ran {
    pub status: i32,
    pub text: String,
    pub error: String,
}

impl Ran {
    fn of(output: Output) -> Ran {
        Ran {
            status: output.status.code().unwrap_or(-1),
            text: String::from_utf8(output.stdout).unwrap(),
            error: String::from_utf8(output.stderr).unwrap(),
        }
    }
}

/// A PNG read back: width, height, and red, green and blue of each pixel.
#[derive(PartialEq, Eq)]
pub struct Rgb {
    pub width: usize,
    pub height: usize,
    pub pixels: Vec<[u8; 3]>,
}

impl Rgb {
    pub fn read(bytes: &[u8]) -> Rgb {
        let mut decoder = png::Decoder::new(bytes);
        decoder.set_transformations(png::Transformations::EXPAND);
        let mut reader = decoder.read_info().unwrap();
        let mut buffer = vec![0; reader.output_buffer_size()];
        let frame = reader.next_frame(&mut buffer).unwrap();
        assert_eq!(frame.color_type, png::ColorType::Rgb);
        let pixels = buffer[..frame.buffer_size()].chunks(3).map(|p| [p[0], p[1], p[2]]).collect();
        Rgb { width: frame.width as usize, height: frame.height as usize, pixels }
    }

    pub fn at(&self, x: usize, y: usize) -> [u8; 3] {
        self.pixels[y * self.width + x]
    }

    /// A PNG of values 0 to 3 in red.
    pub fn png(width: usize, values: &[u8]) -> Vec<u8> {
        let mut bytes = Vec::new();
        let height = values.len() / width;
        let mut encoder = png::Encoder::new(&mut bytes, width as u32, height as u32);
        encoder.set_color(png::ColorType::Indexed);
        encoder.set_depth(png::BitDepth::Eight);
        encoder.set_palette(vec![0, 0, 0, 0x55, 0, 0, 0xAA, 0, 0, 0xFF, 0, 0]);
        let mut writer = encoder.write_header().unwrap();
        writer.write_image_data(values).unwrap();
        writer.finish().unwrap();
        bytes
    }
}

/// The value of a pixel in an image of VRAM, as paper 01 places it.
pub fn pixel(vram: &[u8], frame: usize, eye: usize, x: usize, y: usize) -> u8 {
    let at = 0x8000 * frame + 0x10000 * eye + 64 * x + 2 * (y / 8);
    (u16::from_le_bytes([vram[at], vram[at + 1]]) >> (2 * (y % 8)) & 3) as u8
}

/// Sends Ctrl-C's signal to a process as soon as it is ready to take it.
pub fn interrupt(process: u32) {
    let catches = || {
        let status = fs::read_to_string(format!("/proc/{process}/status")).unwrap_or_default();
        let mask = status.lines().find_map(|line| line.strip_prefix("SigCgt:"));
        mask.and_then(|mask| u64::from_str_radix(mask.trim(), 16).ok()).unwrap_or(0) & 2 != 0
    };
    let begun = std::time::Instant::now();
    while !catches() && begun.elapsed().as_secs() < 20 {
        std::thread::sleep(std::time::Duration::from_millis(1));
    }
    let sent = Command::new("kill").args(["-INT", &process.to_string()]).status().unwrap();
    assert!(sent.success());
}

/// Bytes as zlib packs them.
pub fn packed(bytes: &[u8]) -> Vec<u8> {
    let mut encoder = flate2::write::ZlibEncoder::new(Vec::new(), flate2::Compression::fast());
    encoder.write_all(bytes).unwrap();
    encoder.finish().unwrap()
}

/// A PNG of these chunks, with their sums.
pub fn png_of_chunks(chunks: &[(&[u8; 4], &[u8])]) -> Vec<u8> {
    let mut file = b"\x89PNG\r\n\x1a\n".to_vec();
    for (name, bytes) in chunks {
        let mut crc = flate2::Crc::new();
        crc.update(&name[..]);
        crc.update(bytes);
        file.extend_from_slice(&(bytes.len() as u32).to_be_bytes());
        file.extend_from_slice(&name[..]);
        file.extend_from_slice(bytes);
        file.extend_from_slice(&crc.sum().to_be_bytes());
    }
    file
}

/// The contents of IHDR.
pub fn ihdr(width: u32, height: u32, depth: u8, colour: u8, interlace: u8) -> Vec<u8> {
    [&width.to_be_bytes()[..], &height.to_be_bytes(), &[depth, colour, 0, 0, interlace]].concat()
}

/// The contents of PLTE for the values 0 to 3 in red.
pub const REDS: [u8; 12] = [0, 0, 0, 0x55, 0, 0, 0xAA, 0, 0, 0xFF, 0, 0];

/// A PNG of indexed values, 8 bits each, whose rows are these bytes, the filter's byte first; with bytes after the
/// compressed stream.
pub fn png_of(width: u32, height: u32, rows: &[u8], after: usize) -> Vec<u8> {
    let mut data = packed(rows);
    data.resize(data.len() + after, 0);
    let header = ihdr(width, height, 8, 3, 0);
    png_of_chunks(&[(b"IHDR", &header), (b"PLTE", &REDS), (b"IDAT", &data), (b"IEND", &[])])
}
