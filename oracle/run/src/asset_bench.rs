//! The look-up in a list of references timed beside the Rust's, whose references are made beforehand. Both must give the same
//! answer; nothing is asserted of the time.

use std::hint::black_box;

use answers::assets::{LENGTH_LIMIT, MODEL, answer, references, rust_references};
use generate::asset_lists::{Entry, bytes};
use mmd_anim_format::pmm::oracle_asset_reference_index;

use crate::assets::{Call, told};
use crate::table::{figure, table, thousands};
use crate::timing::{medians, sum};

/// Makes a path and a list of a size, which is the number of what the name says.
struct Shape {
    name: &'static str,
    make: fn(usize) -> (Vec<u8>, Vec<u8>),
    n: usize,
}

const SHAPES: [Shape; 8] = [
    Shape { name: "assets: usual path, references", make: usual, n: 100 },
    Shape { name: "assets: path of slashes, bytes", make: path_of_slashes, n: LENGTH_LIMIT },
    Shape { name: "assets: path of userfiles, bytes", make: path_of_userfiles, n: LENGTH_LIMIT },
    Shape { name: "assets: one-byte entries", make: one_byte_entries, n: LENGTH_LIMIT / 4 },
    Shape { name: "assets: empty entries", make: empty_entries, n: LENGTH_LIMIT / 3 },
    Shape { name: "assets: long entries, same beginning", make: long_entries, n: 270 },
    Shape { name: "assets: long entries, 120,000 slashes", make: long_entries_of_slashes, n: 270 },
    Shape { name: "assets: path and list long, bytes of each", make: both_long, n: LENGTH_LIMIT },
];

/// `only` leaves out the shapes whose name does not have it.
pub fn bench(call: Call, only: &str) {
    let rows: Vec<_> = SHAPES.iter().filter(|shape| shape.name.contains(only)).map(|shape| row(call, shape)).collect();
    let head =
        ["shape", "n", "bytes", "answer", "whole", "library", "Rust", "sum", "R/L", "L/sum", "to n", "Rust to n"];
    table("Look-ups in a list of references: nanoseconds for the whole, and for a byte of path and list", &head, &rows);
}

/// One look-up of a shape, for a profiler; of the shape's own size if no other is given.
pub fn profile(call: Call, name: &str, n: Option<usize>) -> Option<String> {
    let shape = SHAPES.iter().find(|shape| shape.name == name)?;
    let n = n.unwrap_or(shape.n);
    let (path, list) = (shape.make)(n);
    let mut values = [0; 1];
    let returned = call(&path, &list, &mut values);
    Some(format!("{name}: {n}, {} bytes: {returned}, {}", path.len() + list.len(), values[0]))
}

/// Of the shapes.
pub fn names() -> String {
    SHAPES.map(|shape| format!("{:?}", shape.name)).join(", ")
}

fn row(call: Call, shape: &Shape) -> Vec<String> {
    eprintln!("{}", shape.name);
    let (half, whole) = (LookUp::of(shape, shape.n / 2), LookUp::of(shape, shape.n));
    let ([half_library, library, half_rust, rust, sum], _) = medians([
        &mut || half.library(call),
        &mut || whole.library(call),
        &mut || half.rust(),
        &mut || whole.rust(),
        &mut || {
            sum(&whole.path);
            sum(&whole.list);
        },
    ]);
    let bytes = whole.path.len() + whole.list.len();
    let mut row = vec![shape.name.to_string(), thousands(shape.n), thousands(bytes), format!("{:?}", whole.found)];
    row.push(thousands(library as usize));
    row.extend([library, rust, sum].map(|time| figure(time / bytes as f64)));
    row.extend([rust / library, library / sum, library / half_library, rust / half_rust].map(figure));
    row
}

/// A path and a list, and the Rust's references.
struct LookUp {
    path: Vec<u8>,
    list: Vec<u8>,
    rust: Vec<mmd_anim_format::pmm::PmmAssetReference>,
    found: Option<usize>,
}

impl LookUp {
    fn of(shape: &Shape, n: usize) -> Self {
        let (path, list) = (shape.make)(n);
        let rust = rust_references(&references(&list).expect("whole"));
        let found = answer(&path, &list).expect("no refusal");
        Self { path, list, rust, found }
    }

    fn library(&self, call: Call) {
        let mut values = [0; 1];
        let returned = call(black_box(&self.path), black_box(&self.list), &mut values);
        assert_eq!((returned, Some(values[0])), told(&Ok(self.found)));
    }

    fn rust(&self) {
        let path = str::from_utf8(&self.path).expect("ASCII");
        assert_eq!(oracle_asset_reference_index(black_box(&self.rust), "model", black_box(path)), self.found);
    }
}

fn model(text: impl Into<Vec<u8>>) -> Entry {
    Entry { kind: MODEL, text: text.into() }
}

/// The last of so many is the one; every third is of another kind.
fn usual(n: usize) -> (Vec<u8>, Vec<u8>) {
    let reference = |number: usize| match number % 3 {
        0 => Entry { kind: 2, text: format!("UserFile/Accessory/Stage{number}/stage.x").into() },
        _ => model(format!("UserFile/Model/Dancer{number}/dancer.pmx")),
    };
    let mut entries: Vec<Entry> = (1..n).map(reference).collect();
    entries.push(model("UserFile/Model/Dancer/Dancer.pmx"));
    (b"C:\\Dance\\MikuMikuDance\\UserFile\\Model\\Dancer\\dancer.pmx".to_vec(), bytes(&entries))
}

fn path_of_slashes(n: usize) -> (Vec<u8>, Vec<u8>) {
    (vec![b'/'; n], bytes(&[model("a"), model("/"), model(vec![b'/'; 60_000])]))
}

fn path_of_userfiles(n: usize) -> (Vec<u8>, Vec<u8>) {
    let path = b"userfile\\".iter().copied().cycle().take(n / 9 * 9).collect();
    (path, bytes(&[model("a"), model("userfile/")]))
}

fn one_byte_entries(n: usize) -> (Vec<u8>, Vec<u8>) {
    (b"a".to_vec(), bytes(&[model("b")]).repeat(n))
}

fn empty_entries(n: usize) -> (Vec<u8>, Vec<u8>) {
    (b"a".to_vec(), bytes(&[model("")]).repeat(n))
}

const LONG: usize = 60_000;

/// A long path, in capitals where they are small letters; only the last byte is another.
fn long_entries(n: usize) -> (Vec<u8>, Vec<u8>) {
    let path = b"MODEL\\".repeat(LONG / 6);
    let mut text = b"model/".repeat(LONG / 6);
    *text.last_mut().expect("long") = b'x';
    (path, same_again(n, text))
}

fn long_entries_of_slashes(n: usize) -> (Vec<u8>, Vec<u8>) {
    (vec![b'\\'; 2 * LONG], same_again(n, [vec![b'/'; LONG - 1], b"x".to_vec()].concat()))
}

/// So many entries of this text, each as long as the last.
fn same_again(n: usize, text: Vec<u8>) -> Vec<u8> {
    bytes(&[model(text)]).repeat(n)
}

/// A path that has to be gone through for its length, and many short entries that begin as it does.
fn both_long(n: usize) -> (Vec<u8>, Vec<u8>) {
    (vec![b'/'; n], bytes(&[model("/")]).repeat(n / 4))
}
