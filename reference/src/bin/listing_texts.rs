//! Hands texts, good and bad, to a listing program and compares what it prints with the second implementation, to the byte.
//! Usage: listing_texts PROGRAM SEED [--spoil]. With --spoil a byte of one answer is changed, which must be reported.
//! Exits 1 if anything differs, and prints the first difference.
use reference::listing::printed;
use reference::random::{volume, Random};
use std::collections::BTreeMap;
use std::io::Write;
use std::process::{Command, Stdio};

const LONG: usize = 100_000;
const VERY_LONG: usize = 3_000_000;

/// Words that stand in for a number: some are numbers.
const WORDS: [&str; 24] = [
    "0",
    "00",
    "9",
    "1",
    "8",
    "0000000008",
    "00000000008",
    "0000000000",
    "00000000000",
    "4294967295",
    "4294967296",
    "9999999999",
    "10000000000",
    "04294967295",
    "-1",
    "+1",
    "1.0",
    "1,2",
    "0x1",
    "1e3",
    "a",
    "1a",
    "_",
    "\u{661}",
];

/// Bytes that are no separators.
const BYTES: [u8; 14] = [0, 9, 11, 12, 13, 31, 33, 47, 58, 44, 45, 127, 160, 255];

/// A text of these words, parted at random.
fn text(random: &mut Random, words: &[String]) -> Vec<u8> {
    let mut bytes = Vec::new();
    let gap = |random: &mut Random, least: usize, bytes: &mut Vec<u8>| {
        let count = least + if random.once_in(5) { random.below(4) } else { 0 };
        (0..count).for_each(|_| bytes.push(random.pick(b"  \n")));
    };
    gap(random, 0, &mut bytes);
    for (i, word) in words.iter().enumerate() {
        if i > 0 {
            gap(random, 1, &mut bytes);
        }
        bytes.extend(word.as_bytes());
    }
    gap(random, 0, &mut bytes);
    if random.once_in(2) {
        bytes.push(b'\n');
    }
    bytes
}

/// The words of a good text: extents and codes, sometimes with leading zeros.
fn words(random: &mut Random, most: usize) -> Vec<String> {
    let extents = [0; 3].map(|_| 1 + random.below(most));
    let codes = volume(random, extents);
    let numbers: Vec<usize> = extents.into_iter().chain(codes.into_iter().map(|c| c as usize)).collect();
    numbers.iter().map(|n| if random.once_in(20) { format!("{n:010}") } else { n.to_string() }).collect()
}

/// A text with one thing wrong, or nothing.
fn spoiled(random: &mut Random) -> Vec<u8> {
    let mut words = words(random, 4);
    match random.below(7) {
        0 => words[random.below(3)] = random.pick(&WORDS).into(),
        1 => {
            let at = random.below(words.len());
            words[at] = random.pick(&WORDS).into();
        }
        2 => words.truncate(random.below(words.len())),
        3 => {
            let at = random.below(words.len() + 1);
            words.insert(at, random.pick(&WORDS).into());
        }
        4 => {
            words.pop();
        }
        5 => {
            let at = 3 + random.below(words.len() - 3);
            words[at] = random.pick(&["0", "000", "0000000000"]).into();
        }
        _ => {}
    }
    let mut bytes = text(random, &words);
    if random.once_in(3) && !bytes.is_empty() {
        let (at, byte) = (random.below(bytes.len()), random.pick(&BYTES));
        if random.once_in(2) {
            bytes[at] = byte
        } else {
            bytes.insert(at, byte)
        }
    }
    bytes
}

/// Texts that are long, or at an edge of the form.
fn fixed() -> Vec<Vec<u8>> {
    let plain = [
        "",
        " ",
        "\n",
        "1",
        "1 1",
        "1 1 1",
        "1 1 1 0",
        "1 1 1 5",
        "1 1 1 5\n",
        "1 1 1 5 ",
        "1 1 1 5\r\n",
        "1\t1\t1\t5",
        "1111",
        "1 1 1 5\x00",
        "\x001 1 1 5",
        "2 2 1 1 1 2 3",
        "9 1 1 x",
        "0 x 1",
        "9 1",
        "9 1 1",
        "1 1 9 0",
        "1 1 1 x",
        "1 0 1 5",
        "8 8 9",
        "1 1 1 -5",
        "-1 1 1 5",
        "1 1 1 4294967295",
        "1 1 1 4294967296",
        "4294967295 1 1 5",
        "4294967296 1 1 5",
        "4294967297 1 1 5",
        "2 1 1 0",
        "2 1 1 0 x",
        "2 1 1 0 5",
        "1 1 1 0 0",
        "1 1 1 00000000005",
        "1 1 1 0000000005",
        "65536 65536 1 5",
    ];
    let mut texts: Vec<Vec<u8>> = plain.iter().map(|t| t.as_bytes().to_vec()).collect();
    let run = |piece: &str, count: usize| piece.repeat(count).into_bytes();
    for gap in [" ", "\n"] {
        let long = gap.repeat(LONG);
        texts.push(format!("{long}2 1 1 5 6").into_bytes());
        texts.push(format!("2 1 1{long}5 6").into_bytes());
        texts.push(format!("2{long}1{long}1{long}5{long}6").into_bytes());
        texts.push(format!("2 1 1 5 6{long}").into_bytes());
        texts.push(format!("2 1 1 5 6{long}7").into_bytes());
        texts.push(format!("2 1 1 5{long}").into_bytes());
        texts.push(format!("{long}9 1 1{long}x").into_bytes());
    }
    texts.push(run(" ", VERY_LONG));
    texts.push(run("\n ", VERY_LONG / 2));
    texts.push([run(" ", VERY_LONG), run("1 1 1 5", 1)].concat());
    texts.push([run("1 1 1 5", 1), run("\n", VERY_LONG)].concat());
    texts.push([run("1 1 1 5", 1), run(" ", VERY_LONG), run("x", 1)].concat());
    texts.push(run("1", VERY_LONG));
    texts.push(run("0", VERY_LONG));
    texts.push([run("1 1 1 ", 1), run("0", VERY_LONG)].concat());
    texts.push([run("1 1 ", 1), run("7", VERY_LONG)].concat());
    texts.push([run("9 1 1 ", 1), run("7", VERY_LONG)].concat());
    texts.push(run("1 ", VERY_LONG / 2));
    texts.push([run("8 8 8", 1), run(" 5", VERY_LONG / 2)].concat());
    texts.push([run("8 8 8", 1), run(" 0", 512)].concat());
    texts.push([run("8 8 8", 1), run(" 5", 511)].concat());
    texts.push([run("8 8 8", 1), run(" 5", 512)].concat());
    texts.push([run("8 8 8", 1), run(" 5", 513)].concat());
    texts.push([run("8 8 8", 1), run(" 4294967295", 512)].concat());
    texts.push([run("8 8 8", 1), (1..=512u32).flat_map(|c| format!(" {}", u32::MAX - c).into_bytes()).collect()].concat());
    texts.push(vec![0; VERY_LONG]);
    texts
}

fn texts(random: &mut Random) -> Vec<Vec<u8>> {
    let mut texts = fixed();
    for most in [2, 3, 4, 8] {
        for _ in 0..40 {
            let words = words(random, most);
            texts.push(text(random, &words));
        }
    }
    for _ in 0..20 {
        let codes = 1 + random.below(30);
        let words: Vec<String> = [8; 3].into_iter().chain((0..512).map(|_| random.below(codes + 1))).map(|n| n.to_string()).collect();
        texts.push(text(random, &words));
    }
    texts.extend((0..400).map(|_| spoiled(random)));
    texts
}

/// What a program prints for a text; none if it was ended by a signal.
fn run(program: &str, text: &[u8]) -> Option<Vec<u8>> {
    let mut child = Command::new(program).stdin(Stdio::piped()).stdout(Stdio::piped()).spawn().expect("the program can be started");
    let mut input = child.stdin.take().unwrap();
    let output = std::thread::scope(|scope| {
        // a program need not read its text to the end
        scope.spawn(move || input.write_all(text).ok());
        child.wait_with_output().expect("the program ends")
    });
    output.status.code().map(|_| output.stdout)
}

fn shown(bytes: &[u8]) -> String {
    let cut = if bytes.len() > 3000 { " and more" } else { "" };
    format!("{} bytes: {}{cut}", bytes.len(), bytes[..bytes.len().min(3000)].escape_ascii())
}

fn main() {
    let words: Vec<String> = std::env::args().skip(1).collect();
    let (program, seed, spoil) = match &words[..] {
        [program, seed] => (program, seed, false),
        [program, seed, flag] if flag == "--spoil" => (program, seed, true),
        _ => panic!("usage: listing_texts PROGRAM SEED [--spoil]"),
    };
    let mut random = Random::new(seed.parse().expect("a seed"));
    let texts = texts(&mut random);
    let (mut differences, mut kinds) = (0, BTreeMap::new());
    for (i, text) in texts.iter().enumerate() {
        let expected = printed(text);
        let mut found = run(program, text);
        if let (true, 20, Some(bytes)) = (spoil, i, &mut found) {
            bytes[0] ^= 1;
        }
        let kind = if expected.starts_with("refused") { expected.trim_end() } else { "listed" };
        *kinds.entry(kind.to_string()).or_insert(0) += 1;
        if found.as_deref() == Some(expected.as_bytes()) {
            continue;
        }
        differences += 1;
        if differences == 1 {
            let answer = found.map_or("ended by a signal".to_string(), |bytes| shown(&bytes));
            println!(
                "listing_texts: seed {seed} text {i} differs\n  text: {}\n  program:   {answer}\n  reference: {}",
                shown(text),
                shown(expected.as_bytes())
            );
        }
    }
    let kinds: Vec<String> = kinds.iter().map(|(kind, n)| format!("{kind}: {n}")).collect();
    println!("listing_texts: seed {seed}, {} texts, {differences} differences; {}", texts.len(), kinds.join(", "));
    if differences > 0 {
        std::process::exit(1);
    }
}
