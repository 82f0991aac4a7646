//! A host of the installed library, in Rust (host.c).

use laddertick::{join, labels, list, normalise, steps, write, write_label, write_label_300, Index, Kind, Refusal};

fn main() {
    let (file, refused) = (&b"R10,20\nLO5,6,30,4\nA5,40,0,2,1,1,N,\"Bag 7\"\nP2,3\n"[..], &b"N\nB0,0,0,1D,2,2,9,B,\"x\"\n"[..]);
    println!("version {}", laddertick::VERSION);
    for label in labels(file) {
        let label = label.unwrap();
        for (element, text) in label.elements.iter().filter_map(|element| Some((element, element.text()?))) {
            println!("text at {},{}: {text}", element.x, element.y);
        }
        println!("label: {} elements, {} sets, {} copies", label.elements.len(), label.sets, label.copies);
    }
    let lengths = (list(file).unwrap().len(), normalise(file).unwrap().len(), join(file, file).unwrap().len());
    println!("list {}, normalise {}, join {} bytes", lengths.0, lengths.1, lengths.2);
    let refused = steps(refused).last().unwrap().unwrap_err();
    assert_eq!(refused.refusal(), Some(Refusal::BarcodeType));
    println!("refused {} at {}: {}", refused.number, refused.place, refused.meaning());
    write_again(file);
}

/// The file's label with another text, and for 300 dots an inch.
fn write_again(file: &[u8]) {
    let mut label = labels(file).next().unwrap().unwrap();
    label.elements[1].data = b"Bag 8";
    print!("write {}", String::from_utf8(write(&label.elements[1]).unwrap()).unwrap());
    let text = write_label(&label).unwrap();
    println!("write_label {} bytes, read again {}", text.len(), list(&text).unwrap().len());
    let converted = Index::of(file).unwrap().to_300(0).unwrap();
    print!("write_label_300 {}", String::from_utf8(write_label_300(&converted).unwrap()).unwrap());
    if let Kind::Box { width, .. } = &mut label.elements[0].kind {
        *width = -1;
    }
    let refused = write(&label.elements[0]).unwrap_err();
    assert_eq!(refused.refusal(), Some(Refusal::NotReadable));
    println!("refused {} at {}: {}", refused.number, refused.place, refused.meaning());
}
