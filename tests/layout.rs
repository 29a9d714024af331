// Prints a C file that holds include/whakelouna.h to the structs of the crates: the size of each and the place and size of each field, worked out
// from the Rattle sources by C's rules, as checks of the compiler. Arguments: the Rattle files.

use std::collections::HashMap;

/// A struct that crosses the boundary, and its name in the header behind `whakelouna_`.
const NAMES: [(&str, &str); 25] = [
    ("Histogram", "histogram"),
    ("TrendPoint", "trend_point"),
    ("NumberedTrend", "trend_told"),
    ("Params", "params"),
    ("BlockAnswer", "block_answer"),
    ("Response", "response"),
    ("Request", "request"),
    ("Master", "fs_master"),
    ("Device", "fs_device"),
    ("MasterOutcome", "master_outcome"),
    ("DeviceOutcome", "device_outcome"),
    ("Setting", "setting"),
    ("Totals", "totals"),
    ("Live", "live"),
    ("Port", "port"),
    ("Bench", "bench"),
    ("ReplyTold", "reply"),
    ("BenchTold", "bench_told"),
    ("SplitTold", "split_told"),
    ("HandedTold", "handed_told"),
    ("BinsTold", "bins_told"),
    ("MasterTold", "master_told"),
    ("DeviceTold", "device_told"),
    ("State", "state"),
    ("FedTold", "fed_told"),
];

/// The named lengths of arrays.
const LENGTHS: [(&str, usize); 2] = [("BIN_COUNT", 32), ("PORT_COUNT", 8)];

#[derive(Clone, Copy)]
struct Layout {
    size: usize,
    alignment: usize,
}

type Fields = Vec<(String, String)>;

/// The `repr(C)` structs of a file: names, and fields with their types.
fn structs(text: &str) -> Vec<(String, Fields)> {
    text.split("#[repr(C)]\n")
        .skip(1)
        .map(|rest| {
            let (attributes, rest) = rest.split_once("pub struct ").expect("a struct");
            assert!(attributes.lines().all(|line| line.starts_with("#[")), "a struct behind its attributes");
            let (name, body) = rest.split_once(" {\n").expect("a struct");
            let (body, _) = body.split_once("\n}").expect("its end");
            let fields = body.lines().map(|line| {
                let field = line.trim().strip_prefix("pub ").expect("a public field");
                let (name, kind) = field.trim_end_matches(',').split_once(": ").expect("a type");
                (name.to_string(), kind.to_string())
            });
            (name.to_string(), fields.collect())
        })
        .collect()
}

fn length(text: &str) -> usize {
    let named = LENGTHS.iter().find(|(name, _)| *name == text).map(|(_, length)| *length);
    named.unwrap_or_else(|| text.parse().expect("the length of an array"))
}

fn layout(kind: &str, all: &HashMap<String, Fields>) -> Layout {
    let plain = |size| Layout { size, alignment: size };
    match kind {
        "u8" | "bool" => plain(1),
        "u16" => plain(2),
        "u32" | "f32" => plain(4),
        "u64" | "f64" | "usize" => plain(8),
        _ => match kind.strip_prefix('[').and_then(|array| array.strip_suffix(']')) {
            Some(array) => {
                let (element, count) = array.split_once("; ").expect("an array");
                let element = layout(element, all);
                Layout { size: element.size * length(count), ..element }
            }
            None => placed(&all[kind.rsplit("::").next().unwrap()], all).1,
        },
    }
}

fn rounded(at: usize, alignment: usize) -> usize {
    (at + alignment - 1) / alignment * alignment
}

/// Where each field starts and its size, and the whole.
fn placed(fields: &Fields, all: &HashMap<String, Fields>) -> (Vec<(usize, usize)>, Layout) {
    let (mut at, mut alignment) = (0usize, 1);
    let mut places = vec![];
    for (_, kind) in fields {
        let field = layout(kind, all);
        at = rounded(at, field.alignment);
        places.push((at, field.size));
        at += field.size;
        alignment = alignment.max(field.alignment);
    }
    (places, Layout { size: rounded(at, alignment), alignment })
}

fn main() {
    let mut all = HashMap::new();
    for path in std::env::args().skip(1) {
        let text = std::fs::read_to_string(&path).expect("a file");
        for (name, fields) in structs(&text) {
            assert!(NAMES.iter().any(|(known, _)| *known == name), "{name} has no name in C");
            assert!(all.insert(name, fields).is_none(), "two structs of one name");
        }
    }
    println!("#include \"../../include/whakelouna.h\"");
    for (name, c_name) in NAMES {
        let fields = &all[name];
        let (places, whole) = placed(fields, &all);
        println!(
            "_Static_assert(sizeof(struct whakelouna_{c_name}) == {}, \"{name}\");",
            whole.size
        );
        for ((field, _), (start, size)) in fields.iter().zip(places) {
            let of = format!("struct whakelouna_{c_name}, {field}");
            println!("_Static_assert(offsetof({of}) == {start}, \"{name}.{field}\");");
            let of = format!("((struct whakelouna_{c_name} *)0)->{field}");
            println!("_Static_assert(sizeof({of}) == {size}, \"{name}.{field}\");");
        }
    }
}
