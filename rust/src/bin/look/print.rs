//! Answers as text and as JSON. Both say whether there was an answer.

use std::io::{self, Write};

use pezgok::{Answer, Frame, Frames, Kind, Location, NotImported, readable};

const NO_PLACE: &[u8] = b"??:0";

pub fn text(answer: Answer<'_>, out: &mut impl Write) -> io::Result<bool> {
    let answered = match answer {
        Answer::Frames(frames) => {
            for frame in frames {
                text_frame(&frame, out)?;
            }
            true
        }
        Answer::NotImported { unit, symbol } => {
            match symbol {
                Some(name) => {
                    out.write_all(name)?;
                    out.write_all(b" (symbol)\n")?;
                }
                None => out.write_all(b"(not imported)\n")?,
            }
            out.write_all(NO_PLACE)?;
            writeln!(out, " (unit {}, {}, is not imported: {})", unit.unit, unit.name, unit.reason)?;
            false
        }
        Answer::Nothing => {
            out.write_all(b"??\n")?;
            out.write_all(NO_PLACE)?;
            out.write_all(b"\n")?;
            false
        }
    };
    out.write_all(b"\n")?;
    Ok(answered)
}

fn text_frame(frame: &Frame<'_>, out: &mut impl Write) -> io::Result<()> {
    out.write_all(frame.function)?;
    out.write_all(match frame.kind {
        Kind::Function => b"\n",
        Kind::Inlined => b" (inlined)\n",
        Kind::Symbol => b" (symbol)\n",
    })?;
    match &frame.location {
        None => out.write_all(NO_PLACE)?,
        Some(Location { file, line, column }) => {
            match file {
                Some(file) => out.write_all(&file.path())?,
                None => out.write_all(b"??")?,
            }
            write!(out, ":{line}:{column}")?;
        }
    }
    out.write_all(b"\n")
}

pub fn json(address: u64, answer: Answer<'_>, out: &mut impl Write) -> io::Result<bool> {
    write!(out, "{{\"address\":\"{address:#x}\",\"known\":")?;
    let answered = match answer {
        Answer::Frames(frames) => json_frames(frames, out).map(|()| true),
        Answer::NotImported { unit, symbol } => json_not_imported(unit, symbol, out).map(|()| false),
        Answer::Nothing => out.write_all(b"\"nothing\",\"frames\":[]").map(|()| false),
    }?;
    out.write_all(b"}\n")?;
    Ok(answered)
}

fn json_frames(frames: Frames<'_>, out: &mut impl Write) -> io::Result<()> {
    let by_symbol = frames.clone().any(|frame| frame.kind == Kind::Symbol);
    write!(out, "\"{}\",\"frames\":[", if by_symbol { "symbol" } else { "dwarf" })?;
    for (place, frame) in frames.enumerate() {
        if place > 0 {
            out.write_all(b",")?;
        }
        json_frame(frame.function, frame.kind == Kind::Inlined, frame.location, out)?;
    }
    out.write_all(b"]")
}

fn json_not_imported(unit: &NotImported, symbol: Option<&[u8]>, out: &mut impl Write) -> io::Result<()> {
    write!(out, "\"not imported\",\"unit\":{},\"name\":", unit.unit)?;
    string(&unit.name, out)?;
    out.write_all(b",\"reason\":")?;
    string(&unit.reason, out)?;
    out.write_all(b",\"frames\":[")?;
    if let Some(name) = symbol {
        json_frame(name, false, None, out)?;
    }
    out.write_all(b"]")
}

fn json_frame(function: &[u8], inlined: bool, location: Option<Location<'_>>, out: &mut impl Write) -> io::Result<()> {
    out.write_all(b"{\"function\":")?;
    string(&readable(function), out)?;
    write!(out, ",\"inlined\":{inlined},\"file\":")?;
    match location.and_then(|location| location.file) {
        Some(file) => string(&file.to_string(), out)?,
        None => out.write_all(b"null")?,
    }
    let (line, column) = location.map_or((0, 0), |location| (location.line, location.column));
    write!(out, ",\"line\":{line},\"column\":{column}}}")
}

fn string(text: &str, out: &mut impl Write) -> io::Result<()> {
    out.write_all(b"\"")?;
    for letter in text.chars() {
        match letter {
            '"' => out.write_all(b"\\\"")?,
            '\\' => out.write_all(b"\\\\")?,
            '\0'..='\x1f' => write!(out, "\\u{:04x}", u32::from(letter))?,
            _ => write!(out, "{letter}")?,
        }
    }
    out.write_all(b"\"")
}
