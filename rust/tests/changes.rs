//! Every truncation and every single-byte change of the text and image vectors, the library held against the model.

use facetgrove_model::{assemble, assemble_line, lines, Functions, Model, MEMORY_WORDS, STORE_WORDS};
use std::cmp::Reverse;
use std::sync::atomic::{AtomicUsize, Ordering};
use std::time::Instant;

const FOUND_WORD: u16 = 0xA5A5;
const FOUND_STORE: [u32; STORE_WORDS] = [0xA5A5; STORE_WORDS];
const LONGEST_TEXT: usize = 8192;
const SHORT_TEXT: usize = 4096;

#[test]
fn short_texts() {
    let texts = texts_with(|length| length <= SHORT_TEXT);
    assert_eq!(texts.len(), 260);
    over_all("short texts", texts, |text| truncated_texts(text) + changed_texts(text));
}

/// Apart from the short ones, so that they can be left out: these nine take over a quarter of the time.
#[test]
fn long_texts() {
    let texts = texts_with(|length| length > SHORT_TEXT);
    assert_eq!(texts.len(), 9);
    over_all("long texts", texts, |text| truncated_texts(text) + changed_texts(text));
}

fn texts_with(length: impl Fn(usize) -> bool) -> Vec<Vec<u8>> {
    let mut texts = first_fields(include_str!("vectors/micro-text.txt"));
    texts.retain(|text| length(text.len()));
    texts
}

#[test]
fn images() {
    let images = first_fields(include_str!("vectors/images.txt"));
    assert_eq!(images.len(), 250);
    over_all("images", images, |image| truncated_images(image) + changed_images(image));
}

/// The bytes that are the first value of each line.
fn first_fields(file: &str) -> Vec<Vec<u8>> {
    file.lines().map(|line| from_hex(line.split(' ').nth(1).expect("a first value"))).collect()
}

fn from_hex(digits: &str) -> Vec<u8> {
    let pairs = (0..digits.len() / 2).map(|index| &digits[2 * index..2 * index + 2]);
    pairs.map(|pair| u8::from_str_radix(pair, 16).expect("hexadecimal digits")).collect()
}

/// Does the work for each of the originals, on all cores, and prints how many cases there were. The longest come first,
/// so that no core is left alone with one at the end.
fn over_all(name: &str, mut originals: Vec<Vec<u8>>, work: impl Fn(&[u8]) -> u64 + Sync) {
    let start = Instant::now();
    originals.sort_by_key(|original| Reverse(original.len()));
    let next = AtomicUsize::new(0);
    let take_in_turn = || {
        let mut cases = 0;
        while let Some(original) = originals.get(next.fetch_add(1, Ordering::Relaxed)) {
            cases += work(original);
        }
        cases
    };
    let cores = std::thread::available_parallelism().map_or(1, |cores| cores.get());
    let cases: u64 = std::thread::scope(|scope| {
        let threads: Vec<_> = (0..cores).map(|_| scope.spawn(take_in_turn)).collect();
        threads.into_iter().map(|thread| thread.join().expect("no difference")).sum()
    });
    println!("{cases} truncations and changes of {name} in {:.1?}", start.elapsed());
}

/// Every start of the text.
fn truncated_texts(text: &[u8]) -> u64 {
    for length in 0..=text.len() {
        let mut store = FOUND_STORE;
        let answer = assemble(&text[..length], &mut store);
        compare_text(&text[..length], answer, &store);
    }
    text.len() as u64 + 1
}

/// Every change of one byte, where the model judges only the changed line anew.
fn changed_texts(text: &[u8]) -> u64 {
    let mut changed = text.to_vec();
    let judged: Vec<_> = lines(text).enumerate().map(|(number, line)| assemble_line(number, line)).collect();
    let (mut number, mut start) = (0, 0);
    for at in 0..text.len() {
        let end = at + text[at..].iter().position(|&byte| byte == b'\n').unwrap_or(text.len() - at);
        for byte in (0..=255).filter(|&byte| byte != text[at]) {
            changed[at] = byte;
            let mut store = FOUND_STORE;
            let answer = if text.len() > LONGEST_TEXT || byte == b'\n' || text[at] == b'\n' {
                assemble(&changed, &mut store)
            } else {
                let line = assemble_line(number, &changed[start..end]);
                assemble_judged(&judged, number, line, &mut store)
            };
            compare_text(&changed, answer, &store);
        }
        changed[at] = text[at];
        if text[at] == b'\n' {
            (number, start) = (number + 1, at + 1);
        }
    }
    text.len() as u64 * 255
}

/// The answer for lines already judged, but for one that is given anew: the first faulty line decides.
fn assemble_judged(
    judged: &[Result<u32, u32>],
    changed: usize,
    line: Result<u32, u32>,
    store: &mut [u32; STORE_WORDS],
) -> u32 {
    let mut assembled = [0; STORE_WORDS];
    for (number, &judgement) in judged.iter().enumerate() {
        match if number == changed { line } else { judgement } {
            Ok(word) => assembled[number] = word,
            Err(answer) => return answer,
        }
    }
    *store = assembled;
    0
}

fn compare_text(text: &[u8], answer: u32, store: &[u32; STORE_WORDS]) {
    let mut by_library = FOUND_STORE;
    let library_answer = number(facetgrove::micro_assemble(text, &mut by_library));
    assert!(
        library_answer == answer && by_library == *store,
        "library {library_answer}, model {answer}: {}\nlibrary {by_library:?}\nmodel {store:?}",
        text.escape_ascii()
    );
}

/// Every start of the image.
fn truncated_images(image: &[u8]) -> u64 {
    for length in 0..=image.len() {
        compare_image(&image[..length]);
    }
    image.len() as u64 + 1
}

/// Every change of one byte.
fn changed_images(image: &[u8]) -> u64 {
    let mut changed = image.to_vec();
    for at in 0..image.len() {
        for byte in (0..=255).filter(|&byte| byte != image[at]) {
            changed[at] = byte;
            compare_image(&changed);
        }
        changed[at] = image[at];
    }
    image.len() as u64 * 255
}

fn compare_image(image: &[u8]) {
    let mut by_model = [FOUND_WORD; MEMORY_WORDS];
    let mut by_library = by_model;
    let answer = Model.image_read(image, &mut by_model).answer;
    let library_answer = number(facetgrove::image_read(image, &mut by_library));
    assert!(
        library_answer == answer && by_library == by_model,
        "library {library_answer}, model {answer}: {image:02x?}"
    );
}

fn number(outcome: Result<(), facetgrove::Refusal>) -> u32 {
    outcome.map_or_else(facetgrove::Refusal::number, |()| 0)
}
