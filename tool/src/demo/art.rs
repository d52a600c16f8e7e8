//! The demo's art, as pictures of pixel values.
//!
//! Only sums, products, quotients and square roots are used, so that every machine makes the same bytes.

use super::characters::Picture;

/// A number from 0 to 1 that looks random, the same for the same place.
fn noise(x: usize, y: usize) -> f64 {
    let mut n = (x as u32).wrapping_mul(0x9E37_79B1) ^ (y as u32).wrapping_mul(0x85EB_CA77);
    n = (n ^ n >> 15).wrapping_mul(0x2C1B_3C6D);
    n = (n ^ n >> 12).wrapping_mul(0x297A_2D39);
    f64::from((n ^ n >> 15) >> 8) / f64::from(1u32 << 24)
}

/// The pixel value of a brightness from 0 to 1 at a place: two neighbouring values mixed by an 8 by 8 pattern.
fn dithered(brightness: f64, x: usize, y: usize, lowest: u8) -> u8 {
    let mut rank = 0;
    for bit in 0..3 {
        let (a, b) = (x >> bit & 1, y >> bit & 1);
        rank |= (2 * (a ^ b) + b) << (4 - 2 * bit);
    }
    let steps = f64::from(3 - lowest);
    let level = brightness.clamp(0.0, 1.0) * steps + (rank as f64 + 0.5) / 64.0;
    lowest + (level.min(steps) as u8)
}

/// The angle of the point (x, y) in turns, 0 to 1.
fn turns(y: f64, x: f64) -> f64 {
    let (small, large) = if y.abs() < x.abs() { (y.abs(), x.abs()) } else { (x.abs(), y.abs()) };
    let z = if large == 0.0 { 0.0 } else { small / large };
    let s = z * z;
    let series = 0.999866 + s * (-0.3302995 + s * (0.180141 + s * (-0.085133 + s * 0.0208351)));
    let eighth = z * series / (2.0 * std::f64::consts::PI);
    let quarter = if y.abs() < x.abs() { eighth } else { 0.25 - eighth };
    let half = if x < 0.0 { 0.5 - quarter } else { quarter };
    if y < 0.0 {
        1.0 - half
    } else {
        half
    }
}

/// A chequered ball in a square of 64 pixels, lit from the upper left, as an eye `eye` pixels from the middle sees
/// it from 360 pixels away, turned by `turn` of a full turn.
pub fn ball(eye: f64, turn: f64) -> Picture {
    const RADIUS: f64 = 30.0;
    const AWAY: f64 = 360.0;
    Picture::of(64, 64, |column, row| {
        let (x, y) = (column as f64 - 31.5, row as f64 - 31.5);
        let (dx, dy, dz) = (x - eye, y, AWAY);
        let a = dx * dx + dy * dy + dz * dz;
        let b = eye * dx - AWAY * dz;
        let c = eye * eye + AWAY * AWAY - RADIUS * RADIUS;
        let inside = b * b - a * c;
        if inside < 0.0 {
            return 0;
        }
        let t = (-b - inside.sqrt()) / a;
        let (nx, ny, nz) = ((eye + t * dx) / RADIUS, t * dy / RADIUS, (t * dz - AWAY) / RADIUS);
        let light = (-0.55 * nx - 0.60 * ny - 0.58 * nz).max(0.0);
        // the axis leans by about 17 degrees
        let (lx, ly) = (0.956 * nx + 0.292 * ny, 0.956 * ny - 0.292 * nx);
        let around = (turns(lx, -nz) + turn).fract() * 12.0;
        let up = turns(ly, (1.0 - ly * ly).max(0.0).sqrt());
        let up = (up + 0.25).fract() * 12.0;
        let bright = (around as usize + up as usize).is_multiple_of(2);
        let shade = if bright { 0.42 + 0.62 * light } else { 0.34 * light };
        let glint = ((light - 0.93) / 0.07).max(0.0);
        dithered(shade + glint, column, row, 1)
    })
}

/// A full moon with craters in a square of 64 pixels.
pub fn moon() -> Picture {
    const CRATERS: [(f64, f64, f64); 13] = [
        (22.0, 20.0, 7.0),
        (40.0, 15.0, 4.5),
        (45.0, 30.0, 6.5),
        (30.0, 40.0, 8.5),
        (16.0, 36.0, 4.0),
        (47.0, 45.0, 4.0),
        (33.0, 27.0, 3.0),
        (21.0, 50.0, 3.5),
        (38.0, 54.0, 3.0),
        (12.0, 27.0, 2.5),
        (54.0, 36.0, 2.5),
        (31.0, 9.0, 2.5),
        (50.0, 21.0, 2.0),
    ];
    Picture::of(64, 64, |column, row| {
        let (x, y) = (column as f64 + 0.5, row as f64 + 0.5);
        let out = ((x - 32.0) * (x - 32.0) + (y - 32.0) * (y - 32.0)) / (30.5 * 30.5);
        if out > 1.0 {
            return 0;
        }
        let mut shade = 0.55 + 0.45 * (1.0 - out).sqrt() - 0.006 * (x - 24.0);
        for (cx, cy, r) in CRATERS {
            let (dx, dy) = (x - cx, y - cy);
            let d = (dx * dx + dy * dy).sqrt() / r;
            if d < 0.85 {
                shade -= 0.42;
            } else if d < 1.15 {
                shade += if dx + dy > 0.0 { 0.25 } else { -0.2 };
            }
        }
        dithered(shade, column, row, 1)
    })
}

/// Each mountain's column and height.
const PEAKS: [(f64, f64); 15] = [
    (10.0, 18.0),
    (52.0, 26.0),
    (83.0, 15.0),
    (118.0, 29.0),
    (150.0, 20.0),
    (186.0, 31.0),
    (222.0, 17.0),
    (254.0, 24.0),
    (292.0, 13.0),
    (330.0, 27.0),
    (362.0, 18.0),
    (398.0, 30.0),
    (440.0, 21.0),
    (470.0, 28.0),
    (503.0, 16.0),
];

/// A range of mountains, 512 by 32, lit from the right, with snow.
pub fn mountains() -> Picture {
    Picture::of(512, 32, |column, row| {
        let up = 31.5 - row as f64;
        let rough = 3.0 * (noise(column / 3, 7) - 0.5) + 2.0 * (noise(column, 8) - 0.5);
        let mut best: Option<(f64, f64, f64)> = None;
        for (peak, height) in PEAKS {
            let away = column as f64 - peak;
            let top = height - 0.8 * away.abs() + rough * away.abs().min(6.0) / 6.0;
            if up <= top && best.is_none_or(|(b, _, _)| top > b) {
                best = Some((top, away, height));
            }
        }
        let Some((_, away, height)) = best else { return 0 };
        let jag = 4.0 * noise(column / 2, 9);
        let snow = height > 16.0 && up > height * 0.62 + jag;
        let lit = away > 1.5 * (noise(column, row) - 0.5) + (row % 3) as f64 - 1.0;
        match (snow, lit) {
            (true, true) => 3,
            (true, false) => 2,
            (false, true) => dithered(0.3, column, row, 1),
            (false, false) => 1,
        }
    })
}

/// The sea, 512 by 112: dashes of waves that grow towards the viewer, and a glittering path at column `path`.
pub fn sea(path: f64) -> Picture {
    Picture::of(512, 112, |column, row| {
        let (x, j) = (column as f64, row as f64);
        let thick = 1 + row / 40;
        let line = row / thick;
        let length = 3.0 + j / 5.0;
        let dash = ((x + 97.0 * noise(line, 1)) / length) as usize;
        let chance = noise(dash, line + 40);
        let off = (x - path).abs() / (9.0 + 0.42 * j + 10.0 * noise(line, 3));
        if off < 1.0 && chance > 0.25 + 0.55 * off {
            return if chance > 0.62 { 3 } else { 2 };
        }
        match chance {
            c if c > 0.93 => 2,
            c if c > 0.45 => 1,
            _ => 0,
        }
    })
}

/// A sailing boat, 24 by 32.
pub fn boat() -> Picture {
    Picture::of(24, 32, |column, row| {
        let (x, y) = (column as f64, row as f64);
        if (25..31).contains(&row) {
            let inset = (row - 25) as f64 * 0.8;
            return match x > 1.0 + inset && x < 22.5 - 0.6 * inset {
                true if row == 25 => 3,
                true => 1,
                false => 0,
            };
        }
        if row > 25 {
            return 0;
        }
        if column == 11 {
            return 2;
        }
        let main = (2..23).contains(&row) && column > 11 && x < 12.0 + (y - 1.0) * 0.48;
        let jib = (5..22).contains(&row) && column < 11 && x > 10.0 - (y - 4.0) * 0.52;
        match (main, jib) {
            (true, _) => 3,
            (_, true) => 2,
            _ => 0,
        }
    })
}

/// The shadow of the ball, 64 by 16: an ellipse of value 1, thinner at its edge.
pub fn shadow() -> Picture {
    Picture::of(64, 16, |column, row| {
        let (x, y) = ((column as f64 - 31.5) / 31.0, (row as f64 - 7.5) / 7.5);
        let out = x * x + y * y;
        u8::from(out < 0.6 || (out < 1.0 && (column + row) % 2 == 0))
    })
}

/// One half of a gull; the other is the same, flipped.
pub fn wing() -> Picture {
    Picture::drawn(&[
        "........", "..333...", ".3...33.", "3......3", ".......3", "........", "........",
        "........",
    ])
}

/// A piece of a post, and the lamp on its top.
pub fn post() -> Picture {
    Picture::drawn(&[
        "..2331..", "..2331..", "..2331..", "..2331..", "..2331..", "..2331..", "..2331..",
        "..2331..",
    ])
}

pub fn lamp() -> Picture {
    Picture::drawn(&[
        "..1331..", ".133331.", ".333333.", ".333333.", ".133331.", "..1331..", "..2331..",
        "..2331..",
    ])
}

/// Eight characters with a star each, from faint to bright.
pub fn stars() -> Picture {
    const DOTS: [(usize, usize, u8); 7] =
        [(2, 5, 1), (6, 1, 1), (4, 3, 1), (1, 2, 1), (5, 6, 2), (3, 0, 2), (6, 4, 3)];
    Picture::of(64, 8, |column, y| {
        let (kind, x) = (column / 8, column % 8);
        if kind < 7 {
            let (dot_x, dot_y, value) = DOTS[kind];
            return if (x, y) == (dot_x, dot_y) { value } else { 0 };
        }
        match (x.abs_diff(3), y.abs_diff(3)) {
            (0, 0) => 3,
            (0, 1) | (1, 0) => 2,
            (0, 2) | (2, 0) => 1,
            _ => 0,
        }
    })
}

/// A plank of the pier, and its edge.
pub fn planks() -> Picture {
    Picture::drawn(&[
        "3333333333333333",
        "3333333333333333",
        "3333233322222222",
        "3333333311111111",
        "3333333311111111",
        "3333333322222222",
        "3323333333333333",
        "3333333333333333",
    ])
}

/// A wave of 32 steps, -64 to 64, of two parabolas.
pub fn wave() -> Vec<u8> {
    let half = |step: i32| (64 * 4 * step * (16 - step) / 256) as i8;
    (0..32).map(|step| if step < 16 { half(step) } else { -half(step - 16) } as u8).collect()
}

#[cfg(test)]
mod tests {
    use super::*;

    #[test]
    fn angles_are_turns() {
        for (y, x, turn) in [(0.0, 1.0, 0.0), (1.0, 0.0, 0.25), (0.0, -1.0, 0.5), (-1.0, 0.0, 0.75)]
        {
            assert!((turns(y, x) - turn).abs() < 1e-4, "{y} {x}");
        }
        assert!((turns(1.0, -1.0) - 0.375).abs() < 1e-4);
    }

    #[test]
    fn the_wave_is_balanced() {
        let wave: Vec<i8> = wave().into_iter().map(|b| b as i8).collect();
        assert_eq!((wave[0], wave[8], wave[16], wave[24]), (0, 64, 0, -64));
        assert_eq!(wave.iter().map(|&b| i32::from(b)).sum::<i32>(), 0);
    }
}
