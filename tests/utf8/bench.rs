//! Times `utf8_validate` beside `core::str::from_utf8` on texts of several scripts, long and short, and prints tables in
//! Markdown. With `compare COUNT SEED` it compares the two instead, on COUNT random strings and on damaged texts, by the
//! answer and by the place of the first ill-formed sequence.
use std::hint::black_box;
use std::time::Instant;

extern "C" {
    fn utf8_validate(text: *const u8, length: usize, at: *mut usize) -> u32;
}

/// None, or the place of the first ill-formed sequence.
fn here(text: &[u8]) -> Option<usize> {
    let mut at = usize::MAX;
    // SAFETY: the pointers are those of a slice and of a local.
    let answer = unsafe { utf8_validate(text.as_ptr(), text.len(), &mut at) };
    (answer != 0).then_some(at)
}

fn core(text: &[u8]) -> Option<usize> {
    std::str::from_utf8(text).err().map(|e| e.valid_up_to())
}

const RUNS: usize = 7;
const LONG: usize = 26_214_400;

/// Each script by a piece that is repeated.
const SCRIPTS: [(&str, &str); 6] = [
    ("ASCII", "float4 main(float4 position : POSITION) : SV_Target { return position; }\n"),
    ("Latin with accents", "Größe für die Übergabe, à côté de l'été, año, naïve façade. "),
    ("Cyrillic", "Шейдер считает освещение каждой вершины и каждого пикселя. "),
    ("CJK", "頂点着色器計算每個頂點的位置與光照並且傳給像素着色器"),
    ("emoji", "😀🎉🚀🌍🎨🔧🧪📦"),
    ("source with comments in CJK", "float4 main(float2 uv : TEXCOORD0) : SV_Target // 計算像素的顏色\n{ return tex.Sample(s, uv); }\n"),
];

/// A text of a script, of at most so many bytes, cut where a character ends.
fn text(piece: &str, bytes: usize) -> Vec<u8> {
    let mut all = piece.repeat(bytes / piece.len() + 1);
    let mut end = bytes;
    while !all.is_char_boundary(end) {
        end -= 1;
    }
    all.truncate(end);
    all.into_bytes()
}

/// The best of the runs over all texts, in nanoseconds.
fn time(check: fn(&[u8]) -> Option<usize>, texts: &[Vec<u8>]) -> f64 {
    (0..RUNS)
        .map(|_| {
            let start = Instant::now();
            for text in texts {
                assert!(check(black_box(text)).is_none());
            }
            start.elapsed().as_nanos() as f64
        })
        .fold(f64::INFINITY, f64::min)
}

fn table(title: &str, unit: &str, scale: f64, texts: fn(&str) -> Vec<Vec<u8>>) {
    println!("| {title} | core {unit} | here {unit} | here / core |");
    println!("|---|--:|--:|--:|");
    for (name, piece) in SCRIPTS {
        let texts = texts(piece);
        let count = texts.len() as f64;
        let (rust, ours) = (time(core, &texts) / count / scale, time(here, &texts) / count / scale);
        println!("| {name} | {rust:.2} | {ours:.2} | {:.2} |", ours / rust);
    }
    println!();
}

/// xorshift
struct Random(u64);

impl Random {
    fn below(&mut self, n: usize) -> usize {
        self.0 ^= self.0 << 13;
        self.0 ^= self.0 >> 7;
        self.0 ^= self.0 << 17;
        (self.0 % n as u64) as usize
    }
}

/// Bytes at the edges of the ranges of RFC 3629.
const EDGES: [u8; 25] = [
    0x00, 0x41, 0x7F, 0x80, 0x8F, 0x90, 0x9F, 0xA0, 0xBF, 0xC0, 0xC1, 0xC2, 0xDF, 0xE0, 0xE1, 0xEC, 0xED, 0xEE, 0xEF, 0xF0, 0xF1,
    0xF3, 0xF4, 0xF5, 0xFF,
];

fn compare(count: usize, seed: u64) {
    let mut random = Random(seed.wrapping_mul(0x9E37_79B9_7F4A_7C15) | 1);
    let mut compared = 0usize;
    let mut check = |text: &[u8]| {
        assert_eq!(here(text), core(text), "{text:02X?}");
        compared += 1;
    };
    // every string of up to four of the edges, by itself and at each place around the start of a block
    let mut strings = vec![vec![]];
    for length in 0..4 {
        let longer: Vec<Vec<u8>> = strings
            .iter()
            .filter(|s| s.len() == length)
            .flat_map(|s| EDGES.iter().map(move |&b| [s.as_slice(), &[b]].concat()))
            .collect();
        strings.extend(longer);
    }
    for (i, string) in strings.iter().enumerate() {
        check(string);
        let before = [0, 1, 2, 3, 60, 61, 62, 63, 64, 65, 66, 67, 128][i % 13];
        let after = [0, 1, 3, 64, 200][i % 5];
        let around = "é".repeat(100).into_bytes();
        check(&[&vec![b'a'; before], string.as_slice(), &vec![b'a'; after]].concat());
        check(&[&around[..before / 2 * 2], string.as_slice(), &around[..after / 2 * 2]].concat());
    }
    // texts of every script with one byte changed, cut or put in
    for _ in 0..count {
        let (_, piece) = SCRIPTS[random.below(SCRIPTS.len())];
        let length = random.below(400);
        let mut bytes = text(piece, length);
        for _ in 0..random.below(3) {
            let at = random.below(bytes.len() + 1);
            let edge = EDGES[random.below(EDGES.len())];
            match random.below(3) {
                0 => bytes.insert(at, edge),
                1 if at < bytes.len() => bytes[at] = edge,
                _ => bytes.truncate(at),
            }
        }
        check(&bytes);
    }
    println!("{compared} texts, no difference");
}

fn main() {
    let words: Vec<String> = std::env::args().skip(1).collect();
    if let [mode, count, seed] = words.as_slice() {
        assert_eq!(mode, "compare");
        return compare(count.parse().unwrap(), seed.parse().unwrap());
    }
    table("one text of 25 MB", "ms", 1e6, |piece| vec![text(piece, LONG)]);
    table("texts of 1,000 bytes", "ns", 1.0, |piece| vec![text(piece, 1_000); 10_000]);
    table("texts of 20 bytes", "ns", 1.0, |piece| vec![text(piece, 20); 100_000]);
}
