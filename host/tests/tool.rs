//! The command-line tool: one volume under ten cuttings gives one sheet, layers are printed, cells are looked up, and failures leave nothing behind.
use reference::grid::Grid;
use reference::label::number;
use reference::random::Random;
use reference::{codec, pages};
use std::fs;
use std::os::unix::ffi::OsStrExt;
use std::path::{Path, PathBuf};
use std::process::{Command, Output, Stdio};
use tugrelis::volumes::{drill, voronoi};

/// A new folder for one test.
fn folder(name: &str) -> PathBuf {
    let path = std::env::temp_dir().join(format!("tugrelis-{name}-{}", std::process::id()));
    let _ = fs::remove_dir_all(&path);
    fs::create_dir_all(&path).unwrap();
    path
}

fn tool(words: &[&str]) -> Output {
    Command::new(env!("CARGO_BIN_EXE_tugrelis")).args(words).output().unwrap()
}

fn write_volume(path: &Path, codes: &[u32]) {
    fs::write(path, codes.iter().flat_map(|c| c.to_le_bytes()).collect::<Vec<u8>>()).unwrap();
}

/// A core with space around it: a volume around random seeds, drilled.
fn core(extents: [usize; 3], seeds: usize, seed: u64) -> Vec<u32> {
    let mut random = Random::new(seed);
    let seeds: Vec<[i64; 3]> = (0..seeds).map(|_| extents.map(|n| random.below(n) as i64)).collect();
    let mut codes = voronoi(extents, &seeds);
    drill(extents, &mut codes);
    codes
}

/// The sheet without its cutting line.
fn without_cutting(sheet: &str) -> String {
    sheet.lines().filter(|l| !l.starts_with("cut ")).map(|l| format!("{l}\n")).collect()
}

#[test]
fn ten_cuttings_one_sheet() {
    let dir = folder("cuttings");
    let volume = dir.join("volume.raw");
    write_volume(&volume, &core([100, 100, 60], 40, 5));
    let mut sheets = Vec::new();
    let lists = ["0,50,99", "0,13,40,80,99", "0,31,59"];
    for way in 0..10 {
        let out = dir.join(format!("out{way}"));
        let size = ["64", "63", "50", "41", "33", "32", "20", "17", "12"].get(way).copied();
        let mut words = vec![volume.to_str().unwrap(), "100", "100", "60", out.to_str().unwrap()];
        match size {
            Some(n) => words.extend(["--size", n]),
            None => words.extend(["--cut", lists[0], lists[1], lists[2]]),
        }
        let ran = tool(&words);
        assert!(ran.status.success(), "{}", String::from_utf8_lossy(&ran.stderr));
        sheets.push(fs::read_to_string(out.join("sheet.txt")).unwrap());
        fs::remove_dir_all(&out).unwrap();
    }
    let cuts: std::collections::BTreeSet<&str> = sheets.iter().map(|s| s.lines().nth(1).unwrap()).collect();
    assert_eq!(cuts.len(), 10);
    assert!(sheets.iter().all(|s| without_cutting(s) == without_cutting(&sheets[0])));
    assert!(sheets[0].lines().count() > 200);
    fs::remove_dir_all(&dir).unwrap();
}

#[test]
fn the_sheet_of_a_small_volume() {
    let dir = folder("small");
    let volume = dir.join("volume.raw");
    let codes = core([9, 7, 5], 6, 2);
    write_volume(&volume, &codes);
    let out = dir.join("out");
    assert!(tool(&[volume.to_str().unwrap(), "9", "7", "5", out.to_str().unwrap(), "--size", "3"]).status.success());
    let uncut = number([9, 7, 5], &codes);
    let mut text = format!("faces {} curves {} points {}\n", uncut.components[2].len(), uncut.components[1].len(), uncut.components[0].len());
    for (letter, order, width) in [('f', 2, 2), ('c', 1, 4), ('p', 0, 6)] {
        for (i, c) in uncut.components[order].iter().enumerate() {
            let [x, y, z] = uncut.grid.place(c.first);
            let row: Vec<String> = c.row[..width].iter().map(u32::to_string).collect();
            text += &format!("{letter} {} {x} {y} {z} {}\n", i + 1, row.join(" "));
        }
    }
    let sheet = fs::read_to_string(out.join("sheet.txt")).unwrap();
    assert_eq!(without_cutting(&sheet), text);
    assert_eq!(sheet.lines().nth(1), Some("cut x 0 2 4 6 8 y 0 2 4 6 z 0 2 4"));
    assert_eq!(fs::read_dir(&out).unwrap().count(), 4 * 3 * 2 + 2);
    fs::remove_dir_all(&dir).unwrap();
}

/// Runs the tool where it must fail: with this status and one line that has this message, and nothing is left behind.
fn fails(dir: &Path, words: &[&str], status: i32, message: &str) {
    let names = || fs::read_dir(dir).unwrap().map(|e| e.unwrap().file_name()).collect::<Vec<_>>();
    let before = names();
    let ran = tool(words);
    let said = String::from_utf8_lossy(&ran.stderr).to_string();
    assert_eq!(ran.status.code(), Some(status), "{words:?}: {said}");
    assert!(said.starts_with("tugrelis: ") && said.contains(message), "{words:?}: {said}");
    assert!(said.lines().count() == 1 && ran.stdout.is_empty(), "{words:?}: {said}");
    assert_eq!(names(), before, "{words:?} left something behind");
}

#[test]
fn failures_leave_nothing_behind() {
    let dir = folder("failures");
    let (volume, out) = (dir.join("volume.raw"), dir.join("out"));
    write_volume(&volume, &[1, 2, 3, 4, 5, 6, 7, 8]);
    let v = volume.to_str().unwrap();
    let o = out.to_str().unwrap();
    let missing = dir.join("missing.raw");
    for (words, message) in [
        (vec![missing.to_str().unwrap(), "2", "2", "2", o], "missing.raw"),
        (vec![v, "2", "2", "3", o], "volume.raw: has 32 bytes, and 2 × 2 × 3 codes have 48"),
        (vec![v, "2", "2", "0", o], "refused 1 (off size)"),
        (vec![v, "2000", "2", "2", o], "refused 1 (off size)"),
        (vec![v, "2", "2", "2", o, "--cut", "0,1", "0", "0,1"], "refused 2 (bad cut)"),
        (vec![v, "2", "2", "2", dir.to_str().unwrap()], "exists already"),
        (vec![v, "2", "2", "2", "/dev/null/out"], "/dev/null/out"),
    ] {
        fails(&dir, &words, 1, message);
    }
    for (words, message) in [
        (vec![v, "2", "2", "2", o, "--cut", "0,x", "0", "0,1"], "'0,x' is no list of numbers"),
        (vec![v, "2", "2", "2", o, "--size", "65"], "'65' is no block size"),
        (vec![v, "2", "2", "two", o], "'two' is no extent"),
        (vec![v, "2", "2", "2"], "FOLDER are needed"),
        (vec![], "FOLDER are needed"),
        (vec![v, "2", "2", "2", o, "--size"], "'--size' is no way to cut"),
        (vec![v, "2", "2", "2", o, "--sise", "2"], "'--sise' is no option"),
    ] {
        fails(&dir, &words, 2, message);
        fails(&dir, &words, 2, "; see tugrelis --help\n");
    }
    let odd = std::ffi::OsStr::from_bytes(b"\xff");
    let ran = Command::new(env!("CARGO_BIN_EXE_tugrelis")).arg(odd).output().unwrap();
    assert_eq!((ran.status.code(), &ran.stderr[..]), (Some(2), &b"tugrelis: \"\\xFF\" is no text; see tugrelis --help\n"[..]));
    fs::remove_dir_all(&dir).unwrap();
}

/// The pages of each layer of a record's block, by the second implementation.
fn layers(record: &[u8]) -> Vec<String> {
    let extents = [0, 2, 4].map(|k: usize| u16::from_le_bytes([record[k], record[k + 1]]));
    let mut map = vec![0; Grid::new(extents.map(usize::from)).cells()];
    codec::read(record, &mut map).unwrap();
    let printed = |z: u32| {
        let mut tray = vec![0; pages::length(extents)];
        pages::print(extents, z, &map, &mut tray).unwrap();
        String::from_utf8(tray).unwrap()
    };
    (0..2 * u32::from(extents[2]) - 1).map(printed).collect()
}

#[test]
fn every_layer_of_every_record() {
    let dir = folder("layers");
    let (volume, out) = (dir.join("volume.raw"), dir.join("out"));
    let mut codes = core([20, 9, 5], 12, 3);
    (codes[100], codes[101]) = (99_999, 100_000);
    write_volume(&volume, &codes);
    assert!(tool(&[volume.to_str().unwrap(), "20", "9", "5", out.to_str().unwrap(), "--size", "12"]).status.success());
    let records = ["block-00000.record", "block-00001.record"].map(|name| out.join(name));
    for path in &records {
        for (z, layer) in layers(&fs::read(path).unwrap()).iter().enumerate() {
            let ran = tool(&["print", path.to_str().unwrap(), &z.to_string()]);
            assert!(ran.status.success() && ran.stderr.is_empty());
            assert_eq!(String::from_utf8(ran.stdout).unwrap(), *layer);
        }
    }
    // 23 cells are two pages of 17 lines
    assert_eq!(layers(&fs::read(&records[0]).unwrap())[0].lines().count(), 2 * 17);
    fs::remove_dir_all(&dir).unwrap();
}

#[test]
fn a_volume_that_is_called_print_or_lookup() {
    let dir = folder("print");
    ["print", "lookup"].iter().for_each(|name| write_volume(&dir.join(name), &[1, 1, 2, 3]));
    let here = |words: &[&str]| Command::new(env!("CARGO_BIN_EXE_tugrelis")).current_dir(&dir).args(words).output().unwrap();
    assert!(here(&["./lookup", "2", "2", "1", "other"]).status.success());
    assert!(here(&["./print", "2", "2", "1", "out"]).status.success());
    let ran = here(&["print", "out/block-00000.record", "0"]);
    let lines = ["    1    .    1", "    1    1    2", "    2    3    3"].map(|cells| format!("{cells:<80}\n"));
    assert_eq!((ran.status.code(), String::from_utf8(ran.stdout).unwrap()), (Some(0), lines.concat()));
    fs::remove_dir_all(&dir).unwrap();
}

/// A new folder for one test, and the record of a block of 2×2×1 voxels in it.
fn with_record(name: &str) -> (PathBuf, PathBuf) {
    let dir = folder(name);
    let (volume, out) = (dir.join("volume.raw"), dir.join("out"));
    write_volume(&volume, &[1, 1, 2, 3]);
    assert!(tool(&[volume.to_str().unwrap(), "2", "2", "1", out.to_str().unwrap()]).status.success());
    (dir, out.join("block-00000.record"))
}

#[test]
fn printings_that_are_refused() {
    let (dir, good) = with_record("refused");
    let bytes = fs::read(&good).unwrap();
    let [short, off_size, long, missing] = ["short", "off-size", "long", "missing"].map(|name| dir.join(name));
    fs::write(&short, &bytes[..bytes.len() - 1]).unwrap();
    fs::write(&off_size, [&[65], &bytes[1..]].concat()).unwrap();
    // a record and then 16 GiB of zeros, which must not be read to its end
    fs::write(&long, &bytes).unwrap();
    fs::File::options().write(true).open(&long).unwrap().set_len(1 << 34).unwrap();
    for (record, z, message) in [
        (&good, "1", "block-00000.record: layer 1: refused 4 (no such place)"),
        (&good, "4294967295", "block-00000.record: layer 4294967295: refused 4 (no such place)"),
        (&off_size, "1", "off-size: refused 1 (off size)"),
        (&short, "1", "short: refused 11 (bad record)"),
        (&long, "0", "long: refused 11 (bad record)"),
        (&missing, "0", "missing: "),
        (&dir, "0", "tugrelis-refused-"),
    ] {
        fails(&dir, &["print", record.to_str().unwrap(), z], 1, message);
    }
    fs::remove_dir_all(&dir).unwrap();
}

#[test]
fn command_lines_of_print() {
    let (dir, record) = with_record("lines");
    let r = record.to_str().unwrap();
    for (words, message) in [
        (vec!["print"], "print takes RECORD and Z"),
        (vec!["print", r], "print takes RECORD and Z"),
        (vec!["print", r, "0", "1"], "print takes RECORD and Z"),
        (vec!["print", "2", "2", "1", "out"], "print takes RECORD and Z"),
        (vec!["print", r, "top"], "'top' is no layer"),
        (vec!["print", r, "-1"], "'-1' is no layer"),
        (vec!["print", r, "4294967296"], "'4294967296' is no layer"),
        (vec!["print", r, "0", "--size", "2"], "'--size' is no option of print"),
        (vec!["print", "--cut", "0"], "'--cut' is no option of print"),
        (vec!["print", r, "0", "--page"], "'--page' is no option"),
    ] {
        fails(&dir, &words, 2, message);
        fails(&dir, &words, 2, "; see tugrelis --help\n");
    }
    fs::remove_dir_all(&dir).unwrap();
}

/// A new folder for one test, and the folder of a volume of 3×1×1 voxels, codes 1 2 1, in two blocks.
fn with_line(name: &str) -> (PathBuf, PathBuf) {
    let dir = folder(name);
    let (volume, out) = (dir.join("volume.raw"), dir.join("out"));
    write_volume(&volume, &[1, 2, 1]);
    assert!(tool(&[volume.to_str().unwrap(), "3", "1", "1", out.to_str().unwrap(), "--size", "2"]).status.success());
    (dir, out)
}

/// What a lookup prints.
fn looked_up(words: &[&str]) -> String {
    let ran = tool(&[&["lookup"], words].concat());
    assert!(ran.status.success() && ran.stderr.is_empty(), "{}", String::from_utf8_lossy(&ran.stderr));
    String::from_utf8(ran.stdout).unwrap()
}

#[test]
fn cells_of_a_volume() {
    let dir = folder("cells");
    let (volume, out, list) = (dir.join("volume.raw"), dir.join("out"), dir.join("cells"));
    let codes = core([9, 7, 5], 6, 2);
    write_volume(&volume, &codes);
    assert!(tool(&[volume.to_str().unwrap(), "9", "7", "5", out.to_str().unwrap(), "--size", "3"]).status.success());
    // more cells than the library takes at a time
    let (uncut, mut random) = (number([9, 7, 5], &codes), Random::new(8));
    let cells: Vec<usize> = (0..10_000).map(|_| random.below(uncut.map.len())).collect();
    let word = |&p: &usize| uncut.grid.place(p).map(|c| c.to_string()).join(",");
    let right = |cells: &[usize]| cells.iter().map(|&p| format!("{}\n", uncut.map[p])).collect::<String>();
    fs::write(&list, cells.iter().map(word).collect::<Vec<_>>().join("\n")).unwrap();
    assert_eq!(looked_up(&[out.to_str().unwrap(), "--cells", list.to_str().unwrap()]), right(&cells));
    let words: Vec<String> = cells[..50].iter().map(word).collect();
    let words: Vec<&str> = [out.to_str().unwrap()].into_iter().chain(words.iter().map(String::as_str)).collect();
    assert_eq!(looked_up(&words), right(&cells[..50]));
    fs::write(&list, "\n").unwrap();
    assert_eq!(looked_up(&[out.to_str().unwrap(), "--cells", list.to_str().unwrap()]), "");
    fs::remove_dir_all(&dir).unwrap();
}

#[test]
fn only_needed_records_are_read() {
    let (dir, out) = with_line("needed");
    let o = out.to_str().unwrap();
    assert_eq!(looked_up(&[o, "3,0,0", "2,0,0", "3,0,0", "0,0,0"]), "2\n2\n2\n1\n");
    fs::remove_file(out.join("block-00001.record")).unwrap();
    // the shared voxel is read from block 0
    assert_eq!(looked_up(&[o, "2,0,0", "1,0,0"]), "2\n1\n");
    fails(&dir, &["lookup", o, "2,0,0", "3,0,0"], 1, "block-00001.record: ");
    fs::copy(out.join("block-00000.record"), out.join("block-00001.record")).unwrap();
    fails(&dir, &["lookup", o, "3,0,0"], 1, "block-00001.record: is the record of another block");
    fs::remove_file(out.join("block-00001.record")).unwrap();
    fails(&dir, &["lookup", o, "2,0,0", "5,0,0"], 1, "refused 4 (no such place)");
    fs::remove_dir_all(&dir).unwrap();
}

#[test]
fn lookups_that_are_refused() {
    let (dir, out) = with_line("lookups");
    let (o, list) = (out.to_str().unwrap(), dir.join("list"));
    fs::write(&list, "0,0,0 1,0").unwrap();
    let [l, d, none] = [list.to_str().unwrap(), dir.to_str().unwrap(), "/dev/null/none"];
    fails(&dir, &["lookup", o, "--cells", l], 1, "list: '1,0' is no cell");
    fails(&dir, &["lookup", o, "--cells", none], 1, "/dev/null/none: ");
    fails(&dir, &["lookup", d, "0,0,0"], 1, "closed.job: ");
    let (job, bytes) = (out.join("closed.job"), fs::read(out.join("closed.job")).unwrap());
    fs::write(&job, &bytes[1..]).unwrap();
    fails(&dir, &["lookup", o, "0,0,0"], 1, "closed.job: is no file of a closed job");
    fs::write(&job, [&[3], &bytes[1..]].concat()).unwrap();
    fails(&dir, &["lookup", o, "0,0,0"], 1, "refused 3 (wrong stage)");
    for (words, message) in [
        (vec!["lookup"], "lookup takes FOLDER and cells"),
        (vec!["lookup", o], "lookup takes FOLDER and cells"),
        (vec!["lookup", o, "0,0"], "'0,0' is no cell"),
        (vec!["lookup", o, "0,0,0,0"], "'0,0,0,0' is no cell"),
        (vec!["lookup", o, "0,0,4294967296"], "'0,0,4294967296' is no cell"),
        (vec!["lookup", o, "0,-1,0"], "'0,-1,0' is no cell"),
        (vec!["lookup", o, "--cells"], "'--cells' is no cell"),
        (vec!["lookup", o, "0,0,0", "--size", "2"], "'--size' is no cell"),
        (vec!["print", o, "--cells", l], "'--cells' is no option of print"),
        (vec!["volume.raw", "3", "1", "1", o, "--cells", l], "' is no way to cut"),
    ] {
        fails(&dir, &words, 2, message);
        fails(&dir, &words, 2, "; see tugrelis --help\n");
    }
    fs::remove_dir_all(&dir).unwrap();
}

#[test]
fn a_pipe_that_nobody_reads() {
    let (dir, record) = with_record("pipe");
    for words in [vec!["print", record.to_str().unwrap(), "0"], vec!["--help"], vec!["--version"]] {
        // the pipe to a program that has ended
        let mut ended = Command::new("true").stdin(Stdio::piped()).spawn().unwrap();
        let pipe = ended.stdin.take().unwrap();
        ended.wait().unwrap();
        let run = Command::new(env!("CARGO_BIN_EXE_tugrelis")).args(&words).stdout(pipe).stderr(Stdio::piped()).spawn();
        let ran = run.unwrap().wait_with_output().unwrap();
        let said = String::from_utf8(ran.stderr).unwrap();
        assert!(ran.status.code() == Some(1) && said.lines().count() == 1, "{words:?}: {said}");
        assert!(said.starts_with("tugrelis: standard output: "), "{words:?}: {said}");
    }
    fs::remove_dir_all(&dir).unwrap();
}

#[test]
fn help_and_version() {
    let said = |words: &[&str]| {
        let ran = tool(words);
        assert!(ran.status.success() && ran.stderr.is_empty(), "{words:?}");
        String::from_utf8(ran.stdout).unwrap()
    };
    assert_eq!(said(&["--version"]), concat!("tugrelis ", env!("CARGO_PKG_VERSION"), "\n"));
    let help = said(&["--help"]);
    assert_eq!(help, said(&["volume.raw", "2", "--help"]));
    for word in [
        "VOLUME",
        "NX NY NZ",
        "FOLDER",
        "--size N",
        "--cut X-LIST Y-LIST Z-LIST",
        "print ",
        "RECORD",
        "Z ",
        "lookup ",
        "CELL",
        "--cells FILE",
        "--help",
        "--version",
    ] {
        assert_eq!(help.lines().filter(|l| l.trim_start().starts_with(word)).count(), 1, "{word}");
    }
    assert!(help.contains("\n       tugrelis print RECORD Z\n       tugrelis lookup FOLDER (CELL... | --cells FILE)\n"));
    assert_eq!(help, said(&["print", "--help"]));
    assert_eq!(help, said(&["lookup", "--help"]));
}
