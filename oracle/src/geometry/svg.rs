//! Courses read from SVG path data: the proved reader beside a plain one, which splits a text at its spaces.
//!
//! Document 02 §11 stands here once more, written apart from the proved code: the items of a text, its numbers in whole
//! thousandths, its rows and its file. No function of the given Rust reads text.
use super::bench::{Row, table};
use super::calls::pz_read_course;
use super::draw::Draw;
use super::frame::{Call, Compared, Tally};
use super::laps::{argument, file, first_bytes};
use super::lent::Lent;
use crate::random::Random;

/// The most bytes of a text.
const LONG: usize = 65_536;
/// Room for every file.
pub const ROOM: usize = 58_920;

// ---- the plain reader

/// The whole thousandths of an item that is a number: "an optional minus, 1 to 7 digits and optionally a point with one to
/// three decimals".
fn thousandths(item: &str) -> Option<i64> {
    let (sign, amount) = item.strip_prefix('-').map_or((1, item), |rest| (-1, rest));
    let digits = |text: &str, most: usize| {
        let right = (1..=most).contains(&text.len()) && text.bytes().all(|b| b.is_ascii_digit());
        right.then(|| text.parse::<i64>().expect("at most seven digits"))
    };
    let (whole, decimals) = match amount.split_once('.') {
        Some((whole, decimals)) => (whole, digits(decimals, 3)? * 10i64.pow(3 - decimals.len() as u32)),
        None => (amount, 0),
    };
    Some(sign * (1_000 * digits(whole, 7)? + decimals))
}

/// A letter and its numbers, in the text's order.
struct Item {
    letter: char,
    numbers: Vec<i64>,
}

/// The commands of a text; none where it breaks the rules.
fn commands(text: &[u8]) -> Option<Vec<Item>> {
    let text = std::str::from_utf8(text).ok()?;
    let mut commands: Vec<Item> = Vec::new();
    if text.is_empty() {
        return Some(commands);
    }
    let mut items = text.split(' ');
    while let Some(letter) = items.next() {
        let count = match letter {
            "M" => 2,
            "L" if !commands.is_empty() => 2,
            "C" if !commands.is_empty() => 6,
            _ => return None,
        };
        let mut numbers = Vec::with_capacity(count);
        for _ in 0..count {
            numbers.push(thousandths(items.next()?)?);
        }
        commands.push(Item { letter: letter.chars().next()?, numbers });
    }
    Some(commands)
}

/// "A number is its thousandths divided once by 1000, −0 read as +0".
fn number(thousandths: i64) -> f64 {
    thousandths as f64 / 1_000.0
}

/// The 73 bytes of a command: kind, end, and both controls of a curve.
fn bytes_of(item: &Item) -> Vec<u8> {
    let point = |at: usize| [number(item.numbers[at]), number(item.numbers[at + 1]), 0.0];
    let none = [0.0; 3];
    let (kind, points) = match item.letter {
        'M' => (0, [point(0), none, none]),
        'L' => (1, [point(0), none, none]),
        _ => (3, [point(4), point(0), point(2)]),
    };
    std::iter::once(kind).chain(points.iter().flatten().flat_map(|x| x.to_le_bytes())).collect()
}

/// The file of commands: "Each M opens a lap".
fn file_of(commands: &[Item]) -> Vec<u8> {
    let mut laps: Vec<Vec<u8>> = Vec::new();
    for item in commands {
        if item.letter == 'M' {
            laps.push(Vec::new());
        }
        laps.last_mut().expect("M first").extend(bytes_of(item));
    }
    file(&laps)
}

/// The file of a text, or the number of the first row that it falls under: 2, 14, 2, 5, 9.
fn read(text: &[u8], room: usize) -> Result<Vec<u8>, u32> {
    if text.len() > LONG {
        return Err(2);
    }
    let commands = commands(text).ok_or(14u32)?;
    if commands.len() > 800 || commands.iter().filter(|item| item.letter == 'M').count() > 64 {
        return Err(2);
    }
    if commands.iter().flat_map(|item| &item.numbers).any(|x| x.abs() > 1_000_000_000) {
        return Err(5);
    }
    let file = file_of(&commands);
    if file.len() > room { Err(9) } else { Ok(file) }
}

// ---- both sides

/// Reads a text on both sides.
pub fn reading_of(text: &[u8], room: usize) -> Compared {
    let expected = read(text, room);
    let call = Call {
        function: "read_course",
        arguments: vec![argument("recorded", text), ("rooms", vec![room as u64])],
        refusal: expected.as_ref().err().copied().unwrap_or(0),
        lent: vec![Lent::byte_room(room, &[]), Lent::count(), Lent::bytes(text)],
    };
    call.compare(
        |lent| unsafe {
            let (out, count, text_at) = (lent[0].as_mut_ptr(), lent[1].as_mut_ptr(), lent[2].as_mut_ptr::<u8>());
            pz_read_course(text_at, text.len(), out, room, count)
        },
        |before| {
            let bytes = expected.as_ref().expect("a text that is read");
            let count = before[1].written(&[bytes.len() as u64]);
            vec![Lent::byte_room(room, bytes), count, before[2].clone()]
        },
    )
}

// ---- texts

/// A number as the grammar spells it: any of its digits, zeros in front, decimals or none. Where it is `wide` it may lie outside
/// the domain.
fn spelled(draw: &mut Draw, wide: bool) -> String {
    let digits = if wide { draw.of(&[1, 4, 7, 7]) } else { 1 + draw.below(6) };
    let mut text = String::from(if draw.one_in(3) { "-" } else { "" });
    let zeros = draw.one_in(6);
    text.extend((0..digits).map(|_| if zeros { '0' } else { char::from(b'0' + draw.below(10) as u8) }));
    if digits == 7 && draw.flag() {
        // at the limit of the domain, or beside it
        text.replace_range(text.len() - 7.., if draw.flag() { "1000000" } else { "0999999" });
    }
    let decimals = draw.below(4);
    if decimals > 0 {
        text.push('.');
        text.extend((0..decimals).map(|_| if draw.one_in(3) { '0' } else { char::from(b'0' + draw.below(10) as u8) }));
    }
    text
}

/// A command of one of the letters.
fn command(draw: &mut Draw, letter: char, wide: bool) -> String {
    let count = if letter == 'C' { 6 } else { 2 };
    (0..count).fold(letter.to_string(), |text, _| text + " " + &spelled(draw, wide))
}

/// A text of so many commands, the first an M.
fn text(draw: &mut Draw, count: usize) -> Vec<u8> {
    let mut all: Vec<String> = Vec::new();
    let wide = draw.one_in(5);
    if wide {
        draw.label("numbers of seven digits");
    }
    for index in 0..count {
        let letter = if index == 0 || draw.one_in(20) { 'M' } else { draw.of(&['L', 'L', 'C']) };
        all.push(command(draw, letter, wide));
    }
    all.join(" ").into_bytes()
}

/// How many commands a text has: few, or around a limit.
fn count(draw: &mut Draw) -> usize {
    match draw.below(60) {
        0 => draw.edge(&[(799, "799 commands"), (800, "800 commands"), (801, "801 commands")]),
        1 => draw.below(900),
        2..5 => draw.edge(&[(0, "no command"), (1, "one command")]),
        _ => 1 + draw.below(9),
    }
}

/// The room of an output beside what a text needs.
fn room(draw: &mut Draw, text: &[u8]) -> usize {
    let needed = read(text, usize::MAX).map_or(8, |file| file.len());
    match draw.below(8) {
        0 => draw.labelled("room exactly full", needed),
        1 => draw.labelled("room one byte short", needed - 1),
        2 => draw.labelled("no room", 0),
        3 => draw.below(needed + 100),
        _ => ROOM,
    }
}

/// A byte that stands in path data, or is near to one that does.
const NEAR: &[u8] = b" 0123456789.-MLCmlcZzHVSQTA,+eE\t\n/:\x00\x1f\x7f\xa0\xc2\xff";

/// One byte of a text changed, dropped or doubled.
fn damaged(draw: &mut Draw, mut text: Vec<u8>) -> Vec<u8> {
    let at = draw.below(text.len());
    match draw.below(4) {
        0 => {
            draw.label("a byte dropped");
            text.remove(at);
        }
        1 => {
            draw.label("a byte doubled");
            text.insert(at, text[at]);
        }
        2 => {
            draw.label("a byte put in");
            text.insert(at, draw.of(NEAR));
        }
        _ => {
            draw.label("a byte changed");
            text[at] = if draw.flag() { draw.of(NEAR) } else { draw.below(256) as u8 };
        }
    }
    text
}

fn draw_right(draw: &mut Draw) -> Compared {
    let count = count(draw);
    let text = text(draw, count);
    let room = room(draw, &text);
    reading_of(&text, room)
}

fn draw_damaged(draw: &mut Draw) -> Compared {
    let count = 1 + draw.below(4);
    let mut text = text(draw, count);
    for _ in 0..1 + draw.below(2) {
        if !text.is_empty() {
            text = damaged(draw, text);
        }
    }
    let room = room(draw, &text);
    reading_of(&text, room)
}

/// A text at a limit, now and then with a number outside the domain, or one byte wrong: the rows in their order.
fn draw_limit(draw: &mut Draw) -> Compared {
    let far = draw.one_in(3);
    let number = if far { "1000000.001" } else { "12" };
    let (letter, most) = draw.edge(&[
        (('M', 64), "64 laps"),
        (('M', 65), "65 laps"),
        (('L', 799), "800 commands"),
        (('L', 800), "801 commands"),
        (('C', 799), "800 commands"),
        (('L', 9_000), "thousands of commands"),
    ]);
    let numbers = if letter == 'C' { 6 } else { 2 };
    let one = (0..numbers).fold(letter.to_string(), |text, _| text + " " + number);
    let start = if letter == 'M' { vec![] } else { vec![format!("M 0 {number}")] };
    let mut text = start.into_iter().chain((0..most).map(|_| one.clone())).collect::<Vec<_>>().join(" ").into_bytes();
    if draw.one_in(4) {
        let length = draw.edge(&[(LONG, "65,536 bytes"), (LONG + 1, "65,537 bytes")]);
        let pad = text[..text.len().min(length)].to_vec();
        text = pad.iter().chain(b" L 1 1".iter().cycle()).take(length).copied().collect();
    }
    if draw.one_in(4) {
        text = damaged(draw, text);
    }
    let room = room(draw, &text);
    reading_of(&text, room)
}

/// Paths as drawing programs write them: refused by 14, for letters, commas and the like.
pub const DRAWN: [&str; 6] = [
    "m 10,80 c 30,-40 60,-40 90,0 z",
    "M10 80 L 100 80",
    "M 10 80 Q 52.5 10, 95 80 T 180 80",
    "M -1.2e3 4 L 5 6",
    "M 0,0 H 100 V 50",
    "M 0.123456 1 L 2 3 Z",
];

/// At each place of some texts: the byte dropped, doubled, and changed to every other.
fn each_place(tally: &mut Tally) {
    let texts = ["M 0 0", "M -1.5 20 L 3.25 -0", "M 1234567 -0.001 C 1 2 3 4 5 6.789 M 9 9", "M 1 2 L 3 4 L 5.5 -6"];
    for text in texts.map(|text| text.as_bytes().to_vec()) {
        tally.add(&reading_of(&text, ROOM), &["as it stands"]);
        for at in 0..text.len() {
            let (mut dropped, mut doubled) = (text.clone(), text.clone());
            dropped.remove(at);
            doubled.insert(at, text[at]);
            tally.add(&reading_of(&dropped, ROOM), &["each byte dropped"]);
            tally.add(&reading_of(&doubled, ROOM), &["each byte doubled"]);
            for byte in 0..=255 {
                let mut changed = text.clone();
                changed[at] = byte;
                tally.add(&reading_of(&changed, ROOM), &["each byte changed to each other"]);
            }
        }
    }
    for text in DRAWN {
        tally.add(&reading_of(text.as_bytes(), ROOM), &["as drawing programs write"]);
    }
}

/// A number's thousandths, spelled with as few decimals as it has, or with all three.
fn plain(thousandths: u64, all: bool) -> String {
    let (whole, decimals) = (thousandths / 1_000, thousandths % 1_000);
    match decimals {
        0 if !all => whole.to_string(),
        d if all || d % 10 != 0 => format!("{whole}.{d:03}"),
        d if d % 100 != 0 => format!("{whole}.{:02}", d / 10),
        d => format!("{whole}.{}", d / 100),
    }
}

/// So many thousandths, each with either sign, are the numbers of the 799 curves that can stand behind a Move.
const EACH: u64 = 2_397;

/// Every thousandth from 0 to below `end`, with either sign. Beside the plain reader, each number that is read is the one that
/// Rust reads of the same digits.
pub fn numbers(end: u64) -> bool {
    let mut tally = Tally::default();
    let mut other = 0;
    for (index, start) in (0..end).step_by(EACH as usize).enumerate() {
        let amounts = (start..end.min(start + EACH)).map(|v| plain(v, index % 2 == 0));
        let mut items: Vec<String> = amounts.flat_map(|amount| [format!("-{amount}"), amount]).collect();
        // Rust reads −0; a zero is added to it here
        let expected: Vec<f64> = items.iter().map(|item| item.parse::<f64>().expect("a number") + 0.0).collect();
        items.resize(items.len().next_multiple_of(6), "0".to_string());
        let curves: Vec<String> = items.chunks(6).map(|six| format!("C {}", six.join(" "))).collect();
        let call = reading_of(format!("M 0 0 {}", curves.join(" ")).as_bytes(), ROOM);
        other += curve_numbers(&call).iter().zip(&expected).filter(|(a, b)| a.to_bits() != b.to_bits()).count();
        tally.add(&call, &[]);
    }
    println!("{:>10} numbers, {other} of them other than Rust reads", 2 * end);
    tally.report() && other == 0
}

/// The numbers of the curves that were read, in the text's order.
fn curve_numbers(call: &Compared) -> Vec<f64> {
    let size = call.proved.lent[1].words()[0] as usize;
    let bytes = first_bytes(&call.proved.lent[0], size);
    let curves = bytes[16..].chunks_exact(73).filter(|command| command[0] == 3);
    let numbers = |command: &[u8]| -> Vec<f64> {
        let at = |i: usize| f64::from_le_bytes(command[1 + 8 * i..9 + 8 * i].try_into().expect("eight bytes"));
        [3, 4, 6, 7, 0, 1].map(at).to_vec()
    };
    curves.flat_map(numbers).collect()
}

/// Compares each place of some texts, and then `count` drawn ones.
pub fn run(count: u64, seed: u64) -> bool {
    let functions = [draw_right, draw_right, draw_damaged, draw_limit];
    let mut draw = Draw::new(Random::new(seed));
    let mut tally = Tally::default();
    each_place(&mut tally);
    for index in 0..count {
        // a text at a limit is long: one in sixteen
        let kind = if index % 16 == 15 { 3 } else { index % 3 };
        let call = functions[kind as usize](&mut draw);
        tally.add(&call, &draw.labels());
    }
    println!("seed {seed}");
    tally.report()
}

/// A drawn call for the list of records: short, and of every kind.
pub fn drawn(draw: &mut Draw, index: usize) -> Compared {
    [draw_right, draw_damaged][index % 2](draw)
}

/// The time of reading a text, beside the plain reader.
pub fn bench() -> bool {
    let mut draw = Draw::new(Random::new(1));
    let texts: Vec<(String, Vec<u8>)> = [('L', 9), ('L', 799), ('C', 799)]
        .iter()
        .map(|(letter, count)| {
            let numbers = |draw: &mut Draw| format!("{}.{:03}", draw.below(2_000), draw.below(1_000));
            let mut text = String::from("M 0 0");
            for _ in 0..*count {
                let many = if *letter == 'C' { 6 } else { 2 };
                text += &(0..many).fold(format!(" {letter}"), |text, _| text + " " + &numbers(&mut draw));
            }
            (format!("a text of {} commands, {} bytes", count + 1, text.len()), text.into_bytes())
        })
        .collect();
    let mut outs: Vec<Vec<u8>> = texts.iter().map(|_| vec![0; ROOM]).collect();
    let rows = texts.iter().zip(&mut outs).map(|((name, text), out)| Row {
        name: name.clone(),
        given: Box::new(move || read(text, ROOM).map_or(0, |file| file.len())),
        proved: Box::new(move || unsafe {
            let mut count = 0;
            pz_read_course(text.as_ptr(), text.len(), out.as_mut_ptr(), out.len(), &mut count);
            count
        }),
    });
    table("bytes", rows.collect())
}
