//! Draws the atlas that a script leaves, as SVG: picture < SCRIPT > PICTURE.svg
//!
//! Columns, shelves, live items with their ids, free stretches, and the strip that belongs to no column. A refused line is told on standard error,
//! and the script goes on.
#[allow(dead_code)] // a picture asks for nothing by its id
mod lines;
use lines::{create, id, read, Line};
use plytimber::{AtlasAllocator, Error, Header, ITEM_NUMBERS, SHELF_NUMBERS};
use std::fmt::Write;
use std::io::Read;

const NO_ROW: u16 = 65535;
/// The width of the picture, and the room around it and below it.
const WIDE: f64 = 880.0;
const EDGE: f64 = 12.0;
const BELOW: f64 = 46.0;
/// What stands below needs so much width.
const LEAST: f64 = 560.0;

/// A rectangle of the atlas: x and width run along the shelf, y and depth across it, as they stand in the tables.
#[derive(Clone, Copy)]
struct Area {
    x: u16,
    y: u16,
    width: u16,
    depth: u16,
}

struct Picture {
    svg: String,
    vertical: bool,
    scale: f64,
}

impl Picture {
    /// Where an area stands in the picture: left, top, width, height.
    fn place(&self, a: Area) -> [f64; 4] {
        let [x, y, width, depth] = [a.x, a.y, a.width, a.depth].map(|n| n as f64 * self.scale);
        if self.vertical {
            [EDGE + y, EDGE + x, depth, width]
        } else {
            [EDGE + x, EDGE + y, width, depth]
        }
    }

    fn area(&mut self, a: Area, class: &str, more: &str, title: &str) {
        let [x, y, w, h] = self.place(a);
        let _ = writeln!(self.svg, r#"<rect x="{x:.1}" y="{y:.1}" width="{w:.1}" height="{h:.1}" class="{class}"{more}><title>{title}</title></rect>"#);
    }

    /// A text in the middle of an area, as large as fits; none where it would be too small to read.
    fn text(&mut self, a: Area, text: &str) {
        let [x, y, w, h] = self.place(a);
        let size = (w / (text.len() as f64 * 0.62)).min(h * 0.8).min(13.0);
        if size >= 4.0 {
            let (x, y) = (x + w / 2.0, y + h / 2.0 + size * 0.35);
            let _ = writeln!(self.svg, r#"<text x="{x:.1}" y="{y:.1}" font-size="{size:.1}" text-anchor="middle">{text}</text>"#);
        }
    }
}

const STYLE: &str = "<style>
text { font-family: sans-serif; fill: #222 }
.live { stroke: #444; stroke-width: 0.7 }
.free { fill: #eef3e6; stroke: #b9c6a5; stroke-width: 0.7; stroke-dasharray: 3 2 }
.shelf { fill: none; stroke: #333; stroke-width: 1.2 }
.column { fill: none; stroke: #111; stroke-width: 2.6 }
.none { fill: url(#hatch); stroke: #999; stroke-width: 0.7 }
</style>
<pattern id=\"hatch\" width=\"6\" height=\"6\" patternUnits=\"userSpaceOnUse\" patternTransform=\"rotate(45)\">
<rect width=\"6\" height=\"6\" fill=\"#f4f4f4\"/><line x1=\"0\" y1=\"0\" x2=\"0\" y2=\"6\" stroke=\"#b0b0b0\" stroke-width=\"2\"/></pattern>
";

/// Neighbouring rows get colours far apart.
fn colour(row: u16) -> String {
    format!(r#" fill="hsl({}, 62%, 76%)""#, row as u32 * 137 % 360)
}

fn draw(atlas: &AtlasAllocator) -> String {
    let (header, shelves, items) = atlas.parts();
    let Header { width, height, shelf_width, .. } = *header;
    let size = atlas.size();
    let scale = WIDE / size.width.max(size.height) as f64;
    let (wide, high) = ((size.width as f64 * scale + 2.0 * EDGE).max(LEAST), size.height as f64 * scale + 2.0 * EDGE + BELOW);
    let mut p = Picture { svg: String::new(), vertical: header.vertical == 1, scale };
    let _ = writeln!(p.svg, r#"<svg xmlns="http://www.w3.org/2000/svg" width="{wide:.0}" height="{high:.0}" viewBox="0 0 {wide:.1} {high:.1}">"#);
    p.svg += STYLE;
    let _ = writeln!(p.svg, r##"<rect width="{wide:.1}" height="{high:.1}" fill="#ffffff"/>"##);

    let mut columns = Vec::new();
    let mut at = 0;
    while at != NO_ROW {
        let [x, y, depth, _prev, next, first, ..] = row::<SHELF_NUMBERS>(shelves, at);
        let mut item = first;
        while item != NO_ROW {
            let [x, width, _prev, next, _, _, _, allocated, generation] = row::<ITEM_NUMBERS>(items, item);
            let area = Area { x, y, width, depth };
            if allocated == 1 {
                p.area(area, "live", &colour(item), &format!("item {item},{generation}: {width} x {depth}"));
                p.text(area, &format!("{item},{generation}"));
            } else {
                p.area(area, "free", "", &format!("free: {width} x {depth}"));
            }
            item = next;
        }
        p.area(Area { x, y, width: shelf_width, depth }, "shelf", "", &format!("shelf {at}"));
        if !columns.contains(&x) {
            columns.push(x);
        }
        at = next;
    }
    for &x in &columns {
        p.area(Area { x, y: 0, width: shelf_width, depth: height }, "column", "", "column");
    }
    let end = columns.len() as u16 * shelf_width;
    if end < width {
        p.area(Area { x: end, y: 0, width: width - end, depth: height }, "none", "", "belongs to no column");
    }

    // What the marks mean, and the totals.
    let y = high - BELOW + 2.0;
    let marks = [("live", "live item: row,generation"), ("free", "free"), ("shelf", "shelf"), ("column", "column"), ("none", "no column")];
    let mut x = EDGE;
    for (class, meaning) in marks {
        let fill = if class == "live" { colour(5) } else { String::new() };
        let _ = writeln!(p.svg, r#"<rect x="{x:.1}" y="{y:.1}" width="20" height="14" class="{class}"{fill}/>"#);
        let _ = writeln!(p.svg, r#"<text x="{:.1}" y="{:.1}" font-size="12">{meaning}</text>"#, x + 26.0, y + 11.5);
        x += 44.0 + meaning.len() as f64 * 6.6;
    }
    let area = size.width as i64 * size.height as i64;
    let totals = format!("{} x {}, {} live, {} % occupied", size.width, size.height, atlas.iter().len(), atlas.allocated_space() as i64 * 100 / area);
    let _ = writeln!(p.svg, r#"<text x="{EDGE}" y="{:.1}" font-size="12">{totals}</text>"#, y + 33.0);
    p.svg + "</svg>\n"
}

/// A row's numbers, in the order of document 01. The atlas is one that passes, so its links lead to rows.
fn row<const N: usize>(table: &[u16], at: u16) -> [u16; N] {
    std::array::from_fn(|k| table[N * at as usize + k])
}

/// A line's change to the atlas; lines that only ask do nothing here.
fn step(atlas: &mut Option<AtlasAllocator>, line: &[u8]) -> Result<(), Error> {
    let line = read(line).ok_or(Error::NotReadable)?;
    if let Line::New(numbers) = line {
        *atlas = None;
        atlas.replace(create(numbers)?);
        return Ok(());
    }
    let atlas = atlas.as_mut().ok_or(Error::AuditFails)?;
    match line {
        Line::Allocate(size) => atlas.allocate(size).map(|_| ()),
        Line::Release(row, generation) => atlas.deallocate(id(row, generation)?),
        Line::Clear => {
            atlas.clear();
            Ok(())
        }
        Line::New(_) | Line::Look(..) | Line::Space | Line::List => Ok(()),
    }
}

fn main() {
    let mut text = Vec::new();
    std::io::stdin().read_to_end(&mut text).expect("standard input can be read");
    let mut atlas = None;
    for (k, line) in lines::lines(&text).enumerate() {
        if let Err(e) = step(&mut atlas, line) {
            eprintln!("picture: line {}: {}: {e}", k + 1, String::from_utf8_lossy(line));
        }
    }
    match atlas {
        Some(atlas) => print!("{}", draw(&atlas)),
        None => {
            eprintln!("picture: the script leaves no atlas to draw");
            std::process::exit(1);
        }
    }
}
