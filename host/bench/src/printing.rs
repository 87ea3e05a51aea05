//! Printing texts of about 1,000 bytes against a printer written by hand: the whole call; and the writing of the bytes by itself, with the test
//! that it asks for.

use crate::cache::Cache;
use crate::figures::Figures;
use crate::tree::{self, Tree};
use crate::{member, plot, proved, texts, timing};
use std::hint::black_box;

const ROOM: usize = 1024;

/// The number of no entry: a print of it ends behind the test of the cache.
const NONE: u32 = 512;

const CALLS: u32 = 100;

/// The text of a tree without lets, into a buffer that has room for it.
fn print(tree: &Tree, out: &mut Vec<u8>) {
    match tree {
        Tree::Number(value) => number(*value, out),
        Tree::Name(packed) => name(*packed, out),
        Tree::Data => out.extend_from_slice(b"data"),
        Tree::Function(packed, body) => {
            out.push(b'\\');
            name(*packed, out);
            out.extend_from_slice(b" -> ");
            print(body, out);
        }
        Tree::Member(member, receiver, argument) => {
            match **receiver {
                Tree::Function(..) => {
                    out.push(b'(');
                    print(receiver, out);
                    out.push(b')');
                }
                _ => print(receiver, out),
            }
            out.push(b'.');
            out.extend_from_slice(member::TABLE[*member as usize].0);
            out.push(b'(');
            if let Some(argument) = argument {
                print(argument, out);
            }
            out.push(b')');
        }
        Tree::Let(..) => unreachable!("the texts have no lets"),
    }
}

fn name(packed: u64, out: &mut Vec<u8>) {
    out.extend_from_slice(&packed.to_be_bytes()[packed.leading_zeros() as usize / 8..]);
}

fn number(value: i32, out: &mut Vec<u8>) {
    let (mut digits, mut at, mut rest) = ([0; 10], 10, value.unsigned_abs());
    loop {
        at -= 1;
        digits[at] = b'0' + (rest % 10) as u8;
        rest /= 10;
        if rest == 0 {
            break;
        }
    }
    if value < 0 {
        out.push(b'-');
    }
    out.extend_from_slice(&digits[at..]);
}

/// A text as a cache with its entry, and as a tree.
struct Printed {
    cache: Cache,
    entry: u32,
    tree: Box<Tree>,
}

/// All sides give back the text.
fn agree(text: &[u8]) -> Printed {
    let mut cache = Cache::new(&[]);
    let edited = cache.edit(text);
    assert_eq!(edited.refusal, 0);
    let (entry, mut bytes) = (edited.whole, [0; ROOM]);
    let answer = cache.print(entry, &mut bytes);
    assert_eq!((answer.refusal, &bytes[..answer.length as usize]), (0, text));
    assert!(proved::is_right(entry, &cache.links, &cache.cells));
    bytes.fill(0);
    let length = proved::print(entry, &mut bytes, &cache.links, &cache.cells);
    assert_eq!(&bytes[..length as usize], text);
    let tree = tree::read(text).expect("it is read");
    let mut out = Vec::new();
    print(&tree, &mut out);
    assert_eq!(out, text);
    Printed { cache, entry, tree }
}

/// Texts that are not measured, with all that a text can have.
fn agree_on_others() {
    for text in [
        r"\a -> -1",
        r"-2147483648.div(2147483647).add(0)",
        r"(\a -> (\abcdefgh -> abcdefgh.add(a)).count()).longestRun(\b -> data.bestAt(x1))",
    ] {
        agree(text.as_bytes());
    }
    agree(&texts::long_chain());
    agree(&texts::nested_calls());
    agree(&texts::bracketed_functions());
}

pub fn measure(figures: &mut Figures) {
    agree_on_others();
    for (name, text) in [
        ("a chain of 63 calls", texts::printed_chain()),
        ("a chain of 48 calls with names", texts::printed_names()),
        ("calls in arguments, 14 deep", texts::printed_arguments()),
    ] {
        let Printed { cache, entry, tree } = agree(&text);
        let (mut bytes, mut alone) = ([0; ROOM], [0; ROOM]);
        let mut plain = Vec::with_capacity(ROOM);
        let mut call = || cache.print(black_box(entry), &mut bytes);
        let mut refused = || cache.print(black_box(NONE), &mut []);
        let (links, cells) = (&cache.links, &cache.cells);
        let mut part = || proved::print(black_box(entry), &mut alone, links, cells);
        let mut test = || proved::is_right(black_box(entry), links, cells);
        let mut plainly = || {
            plain.clear();
            print(black_box(&tree), &mut plain);
            plain.len()
        };
        let best = timing::in_turn(
            timing::ROUNDS,
            &mut [
                &mut || timing::batch(CALLS, &mut call),
                &mut || timing::batch(CALLS, &mut refused),
                &mut || timing::batch(CALLS, &mut plainly),
                &mut || timing::batch(CALLS, &mut part),
                &mut || timing::batch(CALLS, &mut test),
            ],
        );
        let name = format!("{name}: {} bytes", plot::number(text.len() as f64));
        let [call, refused, plainly, part, test] = best[..] else { unreachable!() };
        figures.part_of("printing", &name, (call, plainly), Some(5.0));
        let tested = format!("{name}, the test of the cache alone");
        figures.part_of("printing", &tested, (refused, plainly), None);
        figures.part_of("printer", &name, (part, plainly), None);
        let right = format!("{name}, the test of its nodes alone");
        figures.part_of("printer", &right, (test, plainly), None);
    }
}
