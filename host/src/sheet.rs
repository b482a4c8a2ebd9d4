//! The result sheet of a closed job: counts, cutting, then faces, curves and points with first cell and row, in the listing's line form.
use crate::error::Error;
use crate::job::{Job, Kind, Stage};
use crate::refusal::Refusal;
use std::io::Write;

fn words(numbers: &[u32]) -> String {
    numbers.iter().map(u32::to_string).collect::<Vec<_>>().join(" ")
}

/// Writes the sheet. Nothing is written of a job that is not closed.
pub fn write_sheet(job: &Job, out: &mut dyn Write) -> Result<(), Error> {
    if job.stage() != Some(Stage::Closed) {
        return Err(Refusal::WrongStage.into());
    }
    let counts = job.counts();
    writeln!(out, "faces {} curves {} points {}", counts.faces, counts.curves, counts.points)?;
    let [cx, cy, cz] = &job.cutting.lists;
    writeln!(out, "cut x {} y {} z {}", words(cx), words(cy), words(cz))?;
    let [w, h, _] = job.cutting.extents.map(|n| 2 * u64::from(n.max(1)) - 1);
    for (letter, kind, many) in [('f', Kind::Face, counts.faces), ('c', Kind::Curve, counts.curves), ('p', Kind::Point, counts.points)] {
        for n in 1..=many {
            let row = job.row(kind, n)?;
            let at = job.first(kind, n).ok_or(Refusal::WrongTray)?;
            writeln!(out, "{letter} {n} {} {} {} {}", at % w, at / w % h, at / w / h, words(&row[..kind.width()]))?;
        }
    }
    Ok(())
}
