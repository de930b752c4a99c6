//! heights FILE: the number of points of a packed LAS file, and its least and greatest raw z, over the library for C.
//!
//!     ./install "$HOME/.local"
//!     rustc --edition 2021 -O -L "$HOME/.local/lib" examples/heights.rs
//!     LD_LIBRARY_PATH="$HOME/.local/lib" ./heights examples/tile.laz
use std::process::exit;

const DONE: u32 = 0;
const BAD: u32 = 2;
const FRONT: usize = 227;
const TABLE_POINTER: u32 = 18;
const BAD_CHUNK: u32 = 21;
const NOT_PACKED: u32 = 27;

/// `struct laz_head` of las.h.
#[repr(C)]
#[derive(Default)]
struct Head {
    refusal: u32,
    offset: u32,
    points: u32,
    chunk: u32,
    vlr_count: u32,
    laszip_start: u32,
    laszip_length: u16,
    header_size: u16,
    record_length: u16,
    extra: u16,
    minor: u8,
    format: u8,
}

#[link(name = "laz")]
extern "C" {
    fn laz_c_need(front: *const u8, length: usize, size: u64, offset: *mut u32, cause: *mut u32) -> u32;
    fn laz_c_head(bytes: *const u8, length: usize, size: u64, head: *mut Head) -> u32;
    fn laz_c_chunks(bytes: *const u8, length: usize, chunk: u32, points: u32) -> u32;
    fn laz_c_table(
        bytes: *const u8, length: usize, chunk: u32, points: u32, total: u64, sizes: *mut u32, sizes_length: usize,
        counts: *mut u32, counts_length: usize, cause: *mut u32,
    ) -> u32;
    fn laz_c_unpack(
        format: u8, extra: u16, bytes: *const u8, bytes_length: usize, count: u32, records: *mut u8, length: usize,
    ) -> u32;
}

/// A cause for which the file is refused, or 0 if memory ran out.
type Cause = u32;

fn done(answer: u32, cause: Cause) -> Result<(), Cause> {
    match answer {
        DONE => Ok(()),
        BAD => Err(cause),
        _ => Err(0),
    }
}

fn head_of(file: &[u8]) -> Result<Head, Cause> {
    let (mut offset, mut cause, mut head) = (0, 0, Head::default());
    let size = file.len() as u64;
    // SAFETY: each pointer is valid for the length after it, and what is written overlaps nothing.
    let answer = unsafe { laz_c_need(file.as_ptr(), file.len().min(FRONT), size, &mut offset, &mut cause) };
    done(answer, cause)?;
    // SAFETY: as above; `offset` is at most the size of the file.
    let answer = unsafe { laz_c_head(file.as_ptr(), offset as usize, size, &mut head) };
    done(answer, head.refusal)?;
    if head.chunk == 0 { Err(NOT_PACKED) } else { Ok(head) }
}

/// The bytes from the chunk table on, and the place of the table.
fn table_of<'a>(file: &'a [u8], head: &Head) -> Result<(&'a [u8], usize), Cause> {
    let first = head.offset as usize + 8;
    let number = |at: usize| file.get(at..at + 8).map(|it| u64::from_le_bytes(it.try_into().unwrap()));
    let (mut end, mut place) = (file.len(), number(first - 8).ok_or(TABLE_POINTER)?);
    if place == u64::MAX && end >= first + 8 {
        end -= 8;
        place = number(end).ok_or(TABLE_POINTER)?;
    }
    match usize::try_from(place) {
        Ok(at) if first <= at && at <= end => Ok((&file[at..end], at)),
        _ => Err(TABLE_POINTER),
    }
}

/// The number of points and the number of bytes of each chunk.
fn chunks_of(file: &[u8], head: &Head) -> Result<Vec<(u32, u32)>, Cause> {
    let (table, at) = table_of(file, head)?;
    // SAFETY: the pointer is valid for the length.
    let count = unsafe { laz_c_chunks(table.as_ptr(), table.len(), head.chunk, head.points) } as usize;
    let (mut sizes, mut counts, mut cause) = (vec![0; count], vec![0; count], 0);
    let total = (at - head.offset as usize - 8) as u64;
    // SAFETY: each pointer is valid for the length after it, and what is written overlaps nothing.
    let answer = unsafe {
        laz_c_table(
            table.as_ptr(), table.len(), head.chunk, head.points, total, sizes.as_mut_ptr(), count, counts.as_mut_ptr(),
            count, &mut cause,
        )
    };
    done(answer, cause)?;
    Ok(sizes.into_iter().zip(counts).collect())
}

/// The least and the greatest raw z, if there is a point.
fn heights(file: &[u8]) -> Result<(u32, Option<(i32, i32)>), Cause> {
    let head = head_of(file)?;
    let mut at = head.offset as usize + 8;
    let mut range: Option<(i32, i32)> = None;
    for (points, size) in chunks_of(file, &head)? {
        let chunk = &file[at..at + size as usize];
        let mut records = vec![0; points as usize * head.record_length as usize];
        // SAFETY: each pointer is valid for the length after it, and what is written overlaps nothing.
        let answer = unsafe {
            laz_c_unpack(
                head.format, head.extra, chunk.as_ptr(), chunk.len(), points, records.as_mut_ptr(), records.len(),
            )
        };
        done(answer, BAD_CHUNK)?;
        for record in records.chunks_exact(head.record_length as usize) {
            let z = i32::from_le_bytes(record[8..12].try_into().unwrap());
            range = Some(range.map_or((z, z), |(low, high)| (low.min(z), high.max(z))));
        }
        at += size as usize;
    }
    Ok((head.points, range))
}

fn main() {
    let name = std::env::args_os().nth(1).unwrap_or_else(|| {
        eprintln!("usage: heights FILE");
        exit(2)
    });
    let file = std::fs::read(&name).unwrap_or_else(|error| {
        eprintln!("heights: {}: {error}", name.to_string_lossy());
        exit(3)
    });
    match heights(&file) {
        Ok((points, range)) => {
            println!("points {points}");
            if let Some((low, high)) = range {
                println!("raw z {low} {high}");
            }
        }
        Err(0) => exit(1),
        Err(cause) => {
            eprintln!("{}: refused by cause {cause}", name.to_string_lossy());
            exit(5)
        }
    }
}
