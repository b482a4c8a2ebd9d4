//! Labels and joins a whole volume, prints a layer of one of its blocks, or looks up cells: HELP tells what the tool takes and leaves. Memory is needed for the
//! tables and for one or two blocks at a time.
use std::fs::{self, File};
use std::io::{BufWriter, Read, Seek, SeekFrom, Write};
use std::path::{Path, PathBuf};
use tugrelis::error::at;
use tugrelis::kept::{read_job, write_job};
use tugrelis::sheet::write_sheet;
use tugrelis::{Block, Cutting, Entries, Error, Job};

const HELP: &str = "\
Labels and joins a whole volume, prints a layer of one of its blocks, or looks up cells.

usage: tugrelis VOLUME NX NY NZ FOLDER [--size N | --cut X-LIST Y-LIST Z-LIST]
       tugrelis print RECORD Z
       tugrelis lookup FOLDER (CELL... | --cells FILE)

  VOLUME      a file of little-endian 32-bit codes, x fastest; 0 is outside the specimen; one that is called print or lookup is named ./print or ./lookup
  NX NY NZ    the extents of the volume in voxels
  FOLDER      gets one record for each block, the result sheet sheet.txt, and closed.job for lookups; must not exist yet
  --size N    blocks of at most N voxels on each axis, 2 to 64; 64 if nothing is said
  --cut X-LIST Y-LIST Z-LIST
              blocks cut where the lists say: numbers parted by commas, 0 first, the last voxel last
  print       prints a layer of a block's map
  RECORD      the block's record
  Z           the layer of cells: 0 to 2n - 2 for a block of n voxels in z
  lookup      prints the final numbers of cells, one to a line, in their order; reads the records that are needed, each once
  CELL        a cell's place in the volume, X,Y,Z: 0 to 2n - 2 on an axis of n voxels; as many as wanted, in any order
  --cells FILE
              the cells of a file, parted by blanks or line ends
  --help      prints this
  --version   prints the version

A printed page has 16 cells to a line, the first line for y = 0. Layers that are wider go on over further pages, left to right. A number has 5 columns;
0 is a dot, above 99,999 are five hash signs.

Exit status: 0; 1 for a refusal or a bad file, and then nothing is left behind; 2 for a command line that it does not take.";

const VERSION: &str = concat!("tugrelis ", env!("CARGO_PKG_VERSION"));

/// The bytes of the longest record: 64×64×64 voxels, and a number for each of the 127×127×127 cells.
const LONGEST: u64 = 12 + 127u64.pow(3).div_ceil(8) + 4 * 127u64.pow(3);

/// What the command line asks for.
enum Asked {
    Tell(&'static str),
    Label(Task),
    Print { record: PathBuf, z: u32 },
    Lookup { folder: PathBuf, cells: Vec<[u32; 3]> },
}

struct Task {
    volume: PathBuf,
    folder: PathBuf,
    cutting: Cutting,
}

fn usage<T>(what: String) -> Result<T, Error> {
    Err(Error::Usage(format!("{what}; see tugrelis --help")))
}

fn list(text: &str) -> Result<Vec<u32>, Error> {
    text.split(',').map(|w| w.parse().or_else(|_| usage(format!("'{text}' is no list of numbers parted by commas")))).collect()
}

fn cutting(extents: [u32; 3], words: &[String]) -> Result<Cutting, Error> {
    match words {
        [] => Ok(Cutting::even(extents, 64)),
        [flag, size] if flag == "--size" => match size.parse() {
            Ok(n) if (2..=64).contains(&n) => Ok(Cutting::even(extents, n)),
            _ => usage(format!("'{size}' is no block size of 2 to 64")),
        },
        [flag, x, y, z] if flag == "--cut" => Ok(Cutting { extents, lists: [list(x)?, list(y)?, list(z)?] }),
        _ => usage(format!("'{}' is no way to cut a volume", words.join(" "))),
    }
}

/// What is printed, by the words after `print`.
fn layer(words: &[String]) -> Result<Asked, Error> {
    if let Some(option) = words.iter().find(|w| w.starts_with("--")) {
        return usage(format!("'{option}' is no option of print"));
    }
    let [record, z] = words else { return usage("print takes RECORD and Z".into()) };
    let z = z.parse().or_else(|_| usage(format!("'{z}' is no layer")))?;
    Ok(Asked::Print { record: record.into(), z })
}

/// A cell, by its place in the volume.
fn cell(word: &str) -> Result<[u32; 3], Error> {
    list(word).ok().and_then(|place| place.try_into().ok()).map_or_else(|| usage(format!("'{word}' is no cell")), Ok)
}

/// What is looked up, by the words after `lookup`.
fn sought(words: &[String]) -> Result<Asked, Error> {
    let (folder, cells) = match words {
        [folder, flag, file] if flag == "--cells" => {
            let read = || -> Result<Vec<_>, Error> { fs::read_to_string(file)?.split_whitespace().map(cell).collect() };
            (folder, read().map_err(at(file))?)
        }
        [folder, cells @ ..] if !cells.is_empty() => (folder, cells.iter().map(|word| cell(word)).collect::<Result<_, _>>()?),
        _ => return usage("lookup takes FOLDER and cells".into()),
    };
    Ok(Asked::Lookup { folder: folder.into(), cells })
}

fn asked(words: &[String]) -> Result<Asked, Error> {
    if let Some(option) = words.iter().find(|w| w.starts_with("--") && !["--size", "--cut", "--cells"].contains(&w.as_str())) {
        return match option.as_str() {
            "--help" => Ok(Asked::Tell(HELP)),
            "--version" => Ok(Asked::Tell(VERSION)),
            _ => usage(format!("'{option}' is no option")),
        };
    }
    match words {
        [word, rest @ ..] if word == "print" => return layer(rest),
        [word, rest @ ..] if word == "lookup" => return sought(rest),
        _ => {}
    }
    let [volume, nx, ny, nz, folder, rest @ ..] = words else { return usage("VOLUME, NX, NY, NZ and FOLDER are needed".into()) };
    let extent = |w: &String| w.parse().or_else(|_| usage(format!("'{w}' is no extent")));
    let extents = [extent(nx)?, extent(ny)?, extent(nz)?];
    Ok(Asked::Label(Task { volume: volume.into(), folder: folder.into(), cutting: cutting(extents, rest)? }))
}

/// Progress of long work on standard error, at most once in a second.
struct Progress {
    stage: &'static str,
    total: usize,
    done: usize,
    last: std::time::Instant,
}

impl Progress {
    fn new(stage: &'static str, total: usize) -> Progress {
        Progress { stage, total, done: 0, last: std::time::Instant::now() }
    }

    fn step(&mut self) {
        self.done += 1;
        if self.last.elapsed().as_secs() >= 1 {
            self.last = std::time::Instant::now();
            eprintln!("tugrelis: {} {} of {}", self.stage, self.done, self.total);
        }
    }
}

/// The codes of a block, read row by row.
fn read_codes(file: &mut File, cutting: &Cutting, block: usize) -> std::io::Result<Vec<u32>> {
    let ([ox, oy, oz], [bx, by, bz]) = (cutting.origin(block).map(u64::from), cutting.block_extents(block).map(u64::from));
    let [nx, ny, _] = cutting.extents.map(u64::from);
    let mut codes = Vec::with_capacity((bx * by * bz) as usize);
    let mut row = vec![0; 4 * bx as usize];
    for z in oz..oz + bz {
        for y in oy..oy + by {
            file.seek(SeekFrom::Start(4 * ((z * ny + y) * nx + ox)))?;
            file.read_exact(&mut row)?;
            codes.extend(row.chunks_exact(4).map(|b| u32::from_le_bytes([b[0], b[1], b[2], b[3]])));
        }
    }
    Ok(codes)
}

/// Writes a file under a temporary name and then renames it.
fn write_file(path: &Path, write: impl FnOnce(&mut dyn Write) -> Result<(), Error>) -> Result<(), Error> {
    let partial = path.with_extension("partial");
    let written = || -> Result<(), Error> {
        let mut out = BufWriter::new(File::create(&partial)?);
        write(&mut out)?;
        out.into_inner().map_err(|e| e.into_error())?.sync_all()?;
        Ok(fs::rename(&partial, path)?)
    };
    written().map_err(at(path.display()))
}

fn job_path(folder: &Path) -> PathBuf {
    folder.join("closed.job")
}

fn record_path(folder: &Path, block: u32) -> PathBuf {
    folder.join(format!("block-{block:05}.record"))
}

/// Opens the volume, whose length must be that of its codes.
fn open_volume(task: &Task) -> Result<File, Error> {
    let file = File::open(&task.volume)?;
    let (bytes, extents) = (file.metadata()?.len(), task.cutting.extents);
    let right = 4 * extents.iter().map(|&n| u64::from(n)).product::<u64>();
    if bytes != right {
        return Err(Error::Length { bytes, extents, right });
    }
    Ok(file)
}

/// Labels every block and writes its record; gives entries that suffice.
fn label_all(task: &Task, folder: &Path) -> Result<Entries, Error> {
    let (cutting, volume) = (&task.cutting, task.volume.display());
    let mut file = open_volume(task).map_err(at(&volume))?;
    let mut entries = Entries::default();
    let mut progress = Progress::new("labelled", cutting.blocks());
    for b in 0..cutting.blocks() {
        let codes = read_codes(&mut file, cutting, b).map_err(at(&volume))?;
        let (block, counts) = Block::label(cutting.block_extents(b), &codes).map_err(at(format_args!("{volume}, block {b}")))?;
        let record = block.record(cutting.origin(b).map(|c| c as u16)).map_err(at(format_args!("block {b}")))?;
        write_file(&record_path(folder, b as u32), |out| Ok(out.write_all(&record)?))?;
        entries = entries.plus(counts).ok_or(Error::TooMany)?;
        progress.step();
    }
    Ok(entries)
}

/// The map of a block, from its record.
fn load(folder: &Path, cutting: &Cutting, block: u32) -> Result<Vec<u32>, Error> {
    let path = record_path(folder, block);
    let read = || -> Result<Vec<u32>, Error> {
        let (read, origin) = Block::read(&fs::read(&path)?)?;
        let same = read.extents == cutting.block_extents(block as usize) && origin.map(u32::from) == cutting.origin(block as usize);
        if same {
            Ok(read.map)
        } else {
            Err(Error::OtherBlock)
        }
    };
    read().map_err(at(path.display()))
}

/// Every step of the job, from the records.
fn join_all(folder: &Path, job: &mut Job) -> Result<(), Error> {
    let cutting = job.cutting.clone();
    let n = cutting.blocks() as u32;
    let mut progress = Progress::new("enrolled", n as usize);
    for b in 0..n {
        job.enrol(b, &load(folder, &cutting, b)?).map_err(at(format_args!("the enrolment of block {b}")))?;
        progress.step();
    }
    let seams = cutting.seams();
    let mut progress = Progress::new("seams joined", seams.len());
    let mut lower: (u32, Vec<u32>) = (u32::MAX, Vec::new());
    for (a, b) in seams {
        if lower.0 != a {
            lower = (a, load(folder, &cutting, a)?);
        }
        let upper = load(folder, &cutting, b)?;
        job.seam((a, b), &lower.1, &upper).map_err(at(format_args!("the seam of blocks {a} and {b}")))?;
        progress.step();
    }
    drop(lower);
    let mut progress = Progress::new("crossed", n as usize);
    for b in 0..n {
        job.crossing(b, &load(folder, &cutting, b)?).map_err(at(format_args!("the crossing of block {b}")))?;
        progress.step();
    }
    let mut progress = Progress::new("points found in", n as usize);
    for b in 0..n {
        job.point(b, &load(folder, &cutting, b)?).map_err(at(format_args!("the point step of block {b}")))?;
        progress.step();
    }
    Ok(())
}

fn work(task: &Task, folder: &Path) -> Result<(), Error> {
    // an opening without entries tells whether extents and cut lists are good, before anything is read
    Job::open(task.cutting.clone(), Entries::default())?;
    fs::create_dir_all(folder).map_err(at(folder.display()))?;
    let entries = label_all(task, folder)?;
    let mut job = Job::open(task.cutting.clone(), entries)?;
    join_all(folder, &mut job)?;
    write_file(&job_path(folder), |out| write_job(&job, out))?;
    write_file(&folder.join("sheet.txt"), |out| write_sheet(&job, out))
}

/// Writes everything beside the folder, which gets its name when all is there.
fn label(task: &Task) -> Result<(), Error> {
    let place = task.folder.display();
    if task.folder.exists() {
        return Err(at(place)(Error::Exists));
    }
    let mut name = task.folder.as_os_str().to_owned();
    name.push(format!(".partial-{}", std::process::id()));
    let partial = PathBuf::from(name);
    let outcome = work(task, &partial).and_then(|()| fs::rename(&partial, &task.folder).map_err(at(place)));
    if outcome.is_err() {
        let _ = fs::remove_dir_all(&partial);
    }
    outcome
}

/// The pages of a layer of a record's block. A file that is longer than any record is not read to its end.
fn pages(record: &Path, z: u32) -> Result<String, Error> {
    let mut bytes = Vec::new();
    File::open(record)?.take(LONGEST + 1).read_to_end(&mut bytes)?;
    let (block, _) = Block::read(&bytes)?;
    block.print(z).map_err(at(format_args!("layer {z}")))
}

/// The final numbers of cells, one to a line.
fn numbers(folder: &Path, cells: &[[u32; 3]]) -> Result<String, Error> {
    let path = job_path(folder);
    let read = || read_job(&fs::read(&path)?);
    let job = read().map_err(at(path.display()))?;
    let numbers = job.lookup_all(cells, |block| load(folder, &job.cutting, block))?;
    Ok(numbers.iter().map(|n| format!("{n}\n")).collect())
}

/// Writes to standard output.
fn tell(text: &str) -> Result<(), Error> {
    let mut out = std::io::stdout();
    out.write_all(text.as_bytes()).and_then(|()| out.flush()).map_err(at("standard output"))
}

fn run() -> Result<(), Error> {
    let told = |word: std::ffi::OsString| word.into_string().or_else(|word| usage(format!("{word:?} is no text")));
    let words = std::env::args_os().skip(1).map(told).collect::<Result<Vec<_>, _>>()?;
    match asked(&words)? {
        Asked::Tell(text) => tell(&format!("{text}\n")),
        Asked::Label(task) => label(&task),
        Asked::Print { record, z } => tell(&pages(&record, z).map_err(at(record.display()))?),
        Asked::Lookup { folder, cells } => tell(&numbers(&folder, &cells)?),
    }
}

fn main() {
    if let Err(error) = run() {
        eprintln!("tugrelis: {error}");
        std::process::exit(if matches!(error, Error::Usage(_)) { 2 } else { 1 });
    }
}
