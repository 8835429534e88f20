//! The script program over the linked library, so that oracle/compare can hold the library against etagere: answer < SCRIPT
mod lines;
use lines::{create, id, read, Line};
use plytimber::{AllocId, Allocation, AtlasAllocator, Error, Rectangle};
use std::io::{Read, Write};

fn record(id: AllocId, r: Rectangle) -> String {
    format!("{} {} {} {} {} {}\n", id.row(), id.generation(), r.min.x, r.min.y, r.max.x, r.max.y)
}

/// One line's answer. Without an atlas all but `n` and lines that can't be read are refused by the audit.
fn answer(atlas: &mut Option<AtlasAllocator>, line: &[u8]) -> Result<String, Error> {
    let line = read(line).ok_or(Error::NotReadable)?;
    if let Line::New(numbers) = line {
        *atlas = None;
        let header = *atlas.insert(create(numbers)?).parts().0;
        return Ok(format!("ok {}\n", header.width / header.shelf_width));
    }
    let atlas = atlas.as_mut().ok_or(Error::AuditFails)?;
    Ok(match line {
        Line::New(_) => unreachable!("answered above"),
        Line::Allocate(size) => {
            let Allocation { id, rectangle } = atlas.allocate(size)?;
            format!("ok {}", record(id, rectangle))
        }
        Line::Release(row, generation) => {
            atlas.deallocate(id(row, generation)?)?;
            "ok\n".into()
        }
        Line::Look(row, generation) => {
            let id = id(row, generation)?;
            format!("ok {}", record(id, atlas.get(id)?))
        }
        Line::Space => format!("space {} {}\n", atlas.allocated_space(), atlas.free_space()),
        Line::List => {
            let all = atlas.iter();
            let count = all.len();
            all.map(|a| record(a.id, a.rectangle)).collect::<String>() + &format!("end {count}\n")
        }
        Line::Clear => {
            atlas.clear();
            "ok\n".into()
        }
    })
}

fn main() -> std::io::Result<()> {
    let mut text = Vec::new();
    std::io::stdin().read_to_end(&mut text)?;
    let mut out = std::io::BufWriter::new(std::io::stdout().lock());
    let mut atlas = None;
    for line in lines::lines(&text) {
        let said = answer(&mut atlas, line).unwrap_or_else(|e| format!("no {}\n", e.number()));
        out.write_all(said.as_bytes())?;
    }
    out.flush()
}
