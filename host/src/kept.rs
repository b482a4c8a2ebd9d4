//! A closed job in a file, for lookups. All numbers are little-endian and have 32 bits, but for the first positions, which have 64: the thirteen numbers of the
//! job, the lengths of the three cut lists, the lists, then the tables that a lookup is lent: ticks, blocks, final numbers of faces and of curves, first positions
//! of points.
use crate::cutting::Cutting;
use crate::error::Error;
use crate::job::{Entries, Job, Numbers, Tables};
use std::io::Write;

/// Writes what a lookup needs of a job.
pub fn write_job(job: &Job, out: &mut dyn Write) -> Result<(), Error> {
    let (numbers, lists, t) = (<[u32; 13]>::from(job.numbers()), &job.cutting.lists, &job.tables);
    let lengths = [0, 1, 2].map(|a: usize| lists[a].len() as u32);
    for part in [&numbers[..], &lengths, &lists[0], &lists[1], &lists[2], &t.ticks, &t.blocks, &t.face_numbers, &t.curve_numbers] {
        part.iter().try_for_each(|n| out.write_all(&n.to_le_bytes()))?;
    }
    Ok(t.point_firsts.iter().try_for_each(|n| out.write_all(&n.to_le_bytes()))?)
}

/// Takes so many numbers of N bytes from the front of a file.
fn take<const N: usize, T>(bytes: &mut &[u8], many: usize, number: fn([u8; N]) -> T) -> Result<Vec<T>, Error> {
    let (front, rest) = bytes.split_at_checked(N * many).ok_or(Error::NoJob)?;
    *bytes = rest;
    Ok(front.chunks_exact(N).map(|b| number(b.try_into().expect("N bytes"))).collect())
}

/// The job of such a file, with no other tables. Nothing is asked of its numbers but that the file has the length that they state: every call tests them.
pub fn read_job(mut bytes: &[u8]) -> Result<Job, Error> {
    let mut words = |many: usize| take(&mut bytes, many, u32::from_le_bytes);
    let numbers = <[u32; 13]>::try_from(words(13)?).map(Numbers::from).expect("thirteen");
    let lengths = words(3)?;
    if lengths.iter().any(|&length| length > 1024) {
        return Err(Error::NoJob);
    }
    let mut list = |a: usize| words(lengths[a] as usize);
    let cutting = Cutting { extents: numbers.extents, lists: [list(0)?, list(1)?, list(2)?] };
    let (blocks, entries) = (cutting.blocks(), numbers.entries);
    let mut tables = Tables::new(0, Entries::default());
    tables.ticks = words(6 * blocks)?;
    tables.blocks = words(5 * blocks)?;
    tables.face_numbers = words(entries.faces as usize)?;
    tables.curve_numbers = words(entries.curves as usize)?;
    tables.point_firsts = take(&mut bytes, entries.points as usize, u64::from_le_bytes)?;
    if bytes.is_empty() {
        Ok(Job::resume(numbers, cutting, tables))
    } else {
        Err(Error::NoJob)
    }
}
