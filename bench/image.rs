//! The images that are refined: a picture, its inks, the halftone that is started from, and pins.

use crate::light_table::SRGB_TO_LINEAR_LUT;

#[derive(Clone)]
pub struct Image {
    pub width: usize,
    pub height: usize,
    pub pixels: Vec<u8>,
    pub palette: Vec<u8>,
    pub indices: Vec<u8>,
    /// Empty, or a byte for each pixel: 1 where it is pinned, else 0.
    pub pinned: Vec<u8>,
    pub ppi: f64,
    pub viewing_distance_cm: f64,
}

impl Image {
    /// The same with a mask that pins nothing. Every move stays as it is, so that a refinement differs from the one
    /// without a mask in nothing but reading it; with a caption pinned, fewer pixels are weighed.
    pub fn with_free_mask(&self) -> Self {
        Self { pinned: vec![0; self.indices.len()], ..self.clone() }
    }
}

/// The halftone that a refinement starts from.
#[derive(Clone, Copy, PartialEq)]
pub enum Start {
    /// The picture by Floyd and Steinberg's error diffusion, in linear light, with the same inks.
    Diffused,
    /// Any ink at each pixel.
    Random,
}

/// What an image is made of.
#[derive(Clone, Copy)]
pub struct Input {
    pub start: Start,
    pub width: usize,
    pub height: usize,
    pub inks: usize,
    pub ppi: f64,
    /// Whether a caption is pinned in a corner.
    pub caption: bool,
    /// Whether the picture has colours that no mixture of the panel's inks gives.
    pub vivid: bool,
}

/// Black, white, green, blue, red, yellow and orange of a panel.
const PANEL: [[u8; 3]; 7] =
    [[30, 28, 34], [235, 235, 228], [45, 105, 70], [55, 65, 140], [165, 45, 45], [225, 200, 50], [200, 105, 50]];

pub fn image(input: Input) -> Image {
    let Input { width, height, .. } = input;
    let palette = palette(input.inks);
    let at = |i: usize| (i % width, i / width);
    let pixels: Vec<[u8; 3]> = (0..width * height).map(at).map(|(x, y)| picture(x, y, input)).collect();
    let mut indices = match input.start {
        Start::Diffused => diffused(&pixels, width, &palette),
        Start::Random => random(pixels.len(), input.inks),
    };
    let mut pinned = vec![];
    if input.caption {
        for i in 0..width * height {
            let (x, y) = at(i);
            let letter = caption(x, y, width, height);
            pinned.push(u8::from(letter.is_some()));
            indices[i] = letter.unwrap_or(indices[i]);
        }
    }
    Image {
        width,
        height,
        pixels: pixels.concat(),
        palette: palette.concat(),
        indices,
        pinned,
        ppi: input.ppi,
        viewing_distance_cm: 40.0,
    }
}

/// Up to 7 inks those of the panel, else a cube of colours: levels of red, green and blue.
fn palette(inks: usize) -> Vec<[u8; 3]> {
    let levels = match inks {
        64 => [4, 4, 4],
        256 => [8, 8, 4],
        _ => return PANEL[..inks].to_vec(),
    };
    let level = |i: usize, of: usize| (20 + i * 215 / (of - 1)) as u8;
    let ink = |i: usize| {
        [
            level(i % levels[0], levels[0]),
            level(i / levels[0] % levels[1], levels[1]),
            level(i / levels[0] / levels[1], levels[2]),
        ]
    };
    (0..inks).map(ink).collect()
}

/// A picture-like image. Where it is not vivid its colours are drawn towards grey and to the panel's range, as a host does
/// before it dithers: mixtures of the panel's inks give each of them.
fn picture(x: usize, y: usize, input: Input) -> [u8; 3] {
    let scene = scene(x, y, input.width, input.height);
    if input.vivid {
        return scene;
    }
    let wide = scene.map(u32::from);
    let grey = (2 * wide[0] + 5 * wide[1] + wide[2]) / 8;
    wide.map(|channel| ((28 * channel + 72 * grey) / 100 * 70 / 100 + 45) as u8)
}

/// A sky that darkens upwards, three shaded balls with edges, ground with a fine texture.
fn scene(x: usize, y: usize, width: usize, height: usize) -> [u8; 3] {
    let (x, y, width, height) = (x as i64, y as i64, width as i64, height as i64);
    for (centre_x, centre_y, radius, colour) in
        [(2, 5, 3, [200, 60, 50]), (5, 6, 2, [60, 110, 70]), (8, 4, 2, [220, 190, 60])]
    {
        let (dx, dy) = (x - width * centre_x / 10, y - height * centre_y / 10);
        let radius = radius * height / 10;
        if dx * dx + dy * dy < radius * radius {
            // Lit from above and left.
            let light = 255 - (dx + dy + 2 * radius) * 160 / (4 * radius).max(1);
            return colour.map(|channel: i64| (channel * light / 255) as u8);
        }
    }
    if y < height * 7 / 10 {
        let t = y * 255 / (height * 7 / 10).max(1);
        return [60 + t / 2, 110 + t / 3, 235 - t / 5].map(|v: i64| v as u8);
    }
    let grain = (x * 37 + y * 101 + x * y % 53) % 48;
    [120 + grain + x * 60 / width, 95 + grain, 60 + grain / 2].map(|v| v as u8)
}

/// Black or white of the panel where the caption lies, in the lower right corner: rows of letters on white.
fn caption(x: usize, y: usize, width: usize, height: usize) -> Option<u8> {
    let (right, below) = (width - x, height - y);
    let within = (8..248).contains(&right) && (8..64).contains(&below);
    let letter = right % 12 < 8 && below % 14 < 10 && (right % 4 < 2 || below % 7 < 2);
    within.then_some(if letter { 0 } else { 1 })
}

/// The nearest ink in linear light, its error handed on: 7/16 to the right, 3, 5 and 1 to the row below.
fn diffused(pixels: &[[u8; 3]], width: usize, palette: &[[u8; 3]]) -> Vec<u8> {
    let light = |colour: [u8; 3]| colour.map(|byte| f64::from_bits(SRGB_TO_LINEAR_LUT[usize::from(byte)]));
    let inks: Vec<[f64; 3]> = palette.iter().map(|&ink| light(ink)).collect();
    let mut indices = Vec::with_capacity(pixels.len());
    let mut errors = vec![[0.0; 3]; pixels.len() + width + 1];
    for (i, &pixel) in pixels.iter().enumerate() {
        let wanted: [f64; 3] = std::array::from_fn(|c| light(pixel)[c] + errors[i][c]);
        let distance = |ink: &[f64; 3]| (0..3).map(|c| (wanted[c] - ink[c]) * (wanted[c] - ink[c])).sum::<f64>();
        let k = (0..inks.len()).min_by(|&a, &b| distance(&inks[a]).total_cmp(&distance(&inks[b]))).unwrap_or(0);
        indices.push(k as u8);
        let (first, last) = (i % width == 0, (i + 1) % width == 0);
        for (to, share, there) in
            [(i + 1, 7.0, !last), (i + width - 1, 3.0, !first), (i + width, 5.0, true), (i + width + 1, 1.0, !last)]
        {
            if there {
                for c in 0..3 {
                    errors[to][c] += (wanted[c] - inks[k][c]) * share / 16.0;
                }
            }
        }
    }
    indices
}

/// By an xorshift.
fn random(pixels: usize, inks: usize) -> Vec<u8> {
    let mut state = 1_u64;
    let mut next = || {
        state ^= state << 13;
        state ^= state >> 7;
        state ^= state << 17;
        (state >> 33) as usize
    };
    (0..pixels).map(|_| (next() % inks) as u8).collect()
}
