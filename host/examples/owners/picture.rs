//! The picture of who owns which byte. The library plays the example; what is drawn is its map and
//! its image.

use gilboreth_host::{Log, Map, Number, Pass, Piece};

const IMAGE: &[u8; 10] = b"..........";
const A: Piece<&[u8]> = piece(0, b"AAAAAA", 2);
const B: Piece<&[u8]> = piece(4, b"BBBB", 1);
const C: Piece<&[u8]> = piece(5, b"CCC", 3);
/// The piece of P9, which is noted and not written.
const D: Piece<&[u8]> = piece(8, b"DD", 3);

/// A piece of its lock's first pass, as all are here.
const fn piece(first: u64, bytes: &[u8], number: u64) -> Piece<&[u8]> {
    Piece { first, bytes, number: Number(number), pass: Pass(1) }
}

pub fn draw() -> String {
    let (mut map, mut log, mut image) = (Map::new(), Log::new(), *IMAGE);
    let note = |map: &mut Map, log: &mut Log, piece: Piece<&[u8]>| {
        let noted = map.note(log, piece.outline(), IMAGE.len() as u64);
        noted.expect("the example is accepted");
    };
    for piece in [A, B, C] {
        note(&mut map, &mut log, piece);
    }
    for piece in [A, B, C] {
        map.write(&mut image, piece).expect("the example is accepted");
    }

    let mut page = Page::default();
    page.bytes();
    for piece in [A, B, C] {
        page.piece(piece, &map);
    }
    page.map("the map", &map);
    page.image("the image", &map, &image);
    page.space();
    note(&mut map, &mut log, D);
    page.piece(D, &map);
    page.map("the map then", &map);
    page.text(
        "Where a byte is full, the map has its piece's number: the piece owns it. B came after",
    );
    page.text("A, but has the smallest number, and owns no byte. D is noted and not written yet.");
    page.finish()
}

const LEFT: u64 = 150;
const WIDTH: u64 = 44;
const HEIGHT: u64 = 30;
const STEP: u64 = 40;
const RIGHT: u64 = 24;

/// The drawing so far, and where the next row begins.
#[derive(Default)]
struct Page {
    body: String,
    top: u64,
}

impl Page {
    fn put(&mut self, element: String) {
        self.body += &format!("  {element}\n");
    }

    fn label(&mut self, name: &str) {
        let (x, y) = (LEFT - 16, self.top + 20);
        self.put(format!(r#"<text class="name" x="{x}" y="{y}">{name}</text>"#));
    }

    /// A box over some bytes with its text in the middle.
    fn cell(&mut self, class: &str, first: u64, last: u64, text: &str) {
        let (x, width) = (LEFT + WIDTH * first + 2, WIDTH * (last - first + 1) - 4);
        let (y, middle, base) = (self.top, x + width / 2, self.top + 20);
        let text = format!(r#"<text x="{middle}" y="{base}">{text}</text>"#);
        let shape = format!(r#"<rect x="{x}" y="{y}" width="{width}" height="{HEIGHT}" rx="4"/>"#);
        self.put(format!(r#"<g class="{class}">{shape}{text}</g>"#));
    }

    fn space(&mut self) {
        self.top += STEP / 2;
    }

    fn next(&mut self) {
        self.top += STEP;
    }

    fn bytes(&mut self) {
        self.top = 16;
        self.label("byte");
        for byte in 0..IMAGE.len() as u64 {
            self.cell("byte", byte, byte, &byte.to_string());
        }
        self.next();
    }

    /// A piece, full where the map has its number and pass.
    fn piece(&mut self, piece: Piece<&[u8]>, map: &Map) {
        let Piece { first, bytes, number, .. } = piece;
        self.label(&format!("{}, number {}", char::from(bytes[0]), number.0));
        for (byte, &letter) in (first..).zip(bytes) {
            let class = if map.age_at(byte) == piece.age() { owned(number) } else { "lost" };
            self.cell(class, byte, byte, &char::from(letter).to_string());
        }
        self.next();
    }

    fn map(&mut self, name: &str, map: &Map) {
        self.label(name);
        for run in map.runs() {
            self.cell(owned(run.number), run.first, run.last, &format!("number {}", run.number.0));
        }
        self.next();
    }

    fn image(&mut self, name: &str, map: &Map, image: &[u8]) {
        self.label(name);
        for (byte, &letter) in (0..).zip(image) {
            let class = owned(map.age_at(byte).number);
            self.cell(class, byte, byte, &char::from(letter).to_string());
        }
        self.next();
    }

    fn text(&mut self, line: &str) {
        self.top += 8;
        let y = self.top + 10;
        self.put(format!(r#"<text class="note" x="24" y="{y}">{line}</text>"#));
        self.top += 12;
    }

    fn finish(self) -> String {
        let (width, height) = (LEFT + WIDTH * IMAGE.len() as u64 + RIGHT, self.top + 20);
        let body = self.body;
        format!(
            r#"<svg xmlns="http://www.w3.org/2000/svg" viewBox="0 0 {width} {height}" width="{width}" height="{height}" role="img">
  <title>Who owns which byte</title>
  <style>{STYLE}  </style>
  <rect class="page" width="{width}" height="{height}" rx="8"/>
{body}</svg>
"#
        )
    }
}

/// The color of a number.
fn owned(number: Number) -> &'static str {
    match number.0 {
        0 => "byte",
        1 => "one",
        2 => "two",
        _ => "three",
    }
}

const STYLE: &str = "
    .page { fill: #ffffff; stroke: #d1d9e0; }
    text { font: 15px ui-monospace, Menlo, Consolas, 'DejaVu Sans Mono', monospace; text-anchor: middle; fill: #ffffff; }
    .name { font: 14px system-ui, 'Segoe UI', 'DejaVu Sans', sans-serif; text-anchor: end; fill: #1f2328; }
    .note { font: 13px system-ui, 'Segoe UI', 'DejaVu Sans', sans-serif; text-anchor: start; fill: #59636e; }
    .byte rect { fill: none; stroke: none; }
    .byte text { fill: #59636e; }
    .lost rect { fill: none; stroke: #818b98; stroke-dasharray: 4 3; }
    .lost text { fill: #59636e; }
    .one rect { fill: #b35900; }
    .two rect { fill: #2f6fd0; }
    .three rect { fill: #1a7f37; }
    @media (prefers-color-scheme: dark) {
      .page { fill: #151b23; stroke: #3d444d; }
      .name { fill: #f0f6fc; }
      .note, .byte text, .lost text { fill: #b1bac4; }
    }
";
