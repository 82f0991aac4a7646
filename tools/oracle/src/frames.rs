//! 01's frames, without the fields that the Rust has not (`fields.rs`): a label is its frame 00 and the frames of its elements; one line a frame, two lowercase hexadecimal digits a byte.

use crate::elements::barcode_qr::QrErrorCorrectionLevel;
use crate::elements::label_element::LabelElement;
use crate::elements::label_info::LabelInfo;
use crate::elements::label_position::LabelPosition;
use crate::elements::line_color::LineColor;

/// The frames of all labels, each line ended by LF.
pub fn listing(labels: &[LabelInfo]) -> String {
    let mut text = String::new();
    for label in labels {
        let mut count = Frame(vec![0x00]);
        count.number(label.elements.len() as i32);
        count.line(&mut text);
        for element in &label.elements {
            frame(element).line(&mut text);
        }
    }
    text
}

struct Frame(Vec<u8>);

impl Frame {
    fn new(kind: u8, at: &LabelPosition) -> Frame {
        let mut f = Frame(Vec::with_capacity(64));
        f.flag(kind);
        f.number(at.x);
        f.number(at.y);
        f
    }

    fn flag(&mut self, value: u8) {
        self.0.push(value);
    }

    fn number(&mut self, value: i32) {
        self.0.extend(value.to_be_bytes());
    }

    fn numbers(&mut self, values: &[i32]) {
        values.iter().for_each(|&v| self.number(v));
    }

    fn float(&mut self, value: f64) {
        self.0.extend(value.to_bits().to_be_bytes());
    }

    fn data(&mut self, bytes: &[u8]) {
        self.number(bytes.len() as i32);
        self.0.extend(bytes);
    }

    fn line(&self, text: &mut String) {
        const DIGITS: &[u8; 16] = b"0123456789abcdef";
        text.reserve(2 * self.0.len() + 1);
        for b in &self.0 {
            text.push(DIGITS[(b >> 4) as usize] as char);
            text.push(DIGITS[(b & 15) as usize] as char);
        }
        text.push('\n');
    }
}

fn frame(element: &LabelElement) -> Frame {
    match element {
        LabelElement::Text(e) => {
            let mut f = Frame::new(0x01, &e.position);
            f.flag(e.font.orientation as u8);
            f.flag(e.reverse_print.value as u8);
            f.float(e.font.height);
            f.float(e.font.width);
            f.data(e.text.as_bytes());
            f
        }
        LabelElement::GraphicBox(e) => {
            let mut f = Frame::new(0x02, &e.position);
            f.numbers(&[e.width, e.height, e.border_thickness]);
            f.flag((e.line_color == LineColor::White) as u8);
            f
        }
        LabelElement::DiagonalLine(e) => {
            let mut f = Frame::new(0x03, &e.position);
            f.numbers(&[e.width, e.height, e.border_thickness]);
            f.flag(e.top_to_bottom as u8);
            f
        }
        LabelElement::GraphicField(e) => {
            let mut f = Frame::new(0x04, &e.position);
            f.numbers(&[e.row_bytes, e.total_bytes]);
            f.data(&e.data);
            f
        }
        LabelElement::Barcode128(e) => {
            let b = &e.barcode;
            let mut f = bars(0x05, &e.position, b.orientation as u8, e.width, b.height, b.line);
            f.flag(b.mode as u8);
            f.data(e.data.as_bytes());
            f
        }
        LabelElement::BarcodeEan13(e) => {
            let b = &e.barcode;
            let mut f = bars(0x06, &e.position, b.orientation as u8, e.width, b.height, b.line);
            f.data(e.data.as_bytes());
            f
        }
        LabelElement::BarcodeEan8(e) => {
            let b = &e.barcode;
            let mut f = bars(0x07, &e.position, b.orientation as u8, e.width, b.height, b.line);
            f.data(e.data.as_bytes());
            f
        }
        LabelElement::BarcodeUca(e) => {
            let b = &e.barcode;
            let mut f = bars(0x08, &e.position, b.orientation as u8, e.width, b.height, b.line);
            f.data(e.data.as_bytes());
            f
        }
        LabelElement::Barcode2of5(e) => {
            let b = &e.barcode;
            let mut f = bars(0x09, &e.position, b.orientation as u8, e.width, b.height, b.line);
            f.flag(b.check_digit as u8);
            f.float(e.width_ratio);
            f.data(e.data.as_bytes());
            f
        }
        LabelElement::Barcode39(e) => {
            let b = &e.barcode;
            let mut f = bars(0x0a, &e.position, b.orientation as u8, e.width, b.height, b.line);
            f.flag(b.check_digit as u8);
            f.float(e.width_ratio);
            f.data(e.data.as_bytes());
            f
        }
        LabelElement::BarcodePdf417(e) => {
            let b = &e.barcode;
            let mut f = Frame::new(0x0b, &e.position);
            f.flag(b.orientation as u8);
            f.numbers(&[b.row_height, b.security, b.columns, b.rows]);
            f.flag(b.truncate as u8);
            f.number(b.module_width);
            f.data(e.data.as_bytes());
            f
        }
        LabelElement::BarcodeAztec(e) => {
            let mut f = Frame::new(0x0c, &e.position);
            f.numbers(&[e.barcode.magnification, e.barcode.size]);
            f.data(e.data.as_bytes());
            f
        }
        LabelElement::BarcodeDatamatrix(e) => {
            let mut f = Frame::new(0x0d, &e.position);
            f.numbers(&[e.barcode.height, e.barcode.columns, e.barcode.rows]);
            f.data(e.data.as_bytes());
            f
        }
        LabelElement::BarcodeQr(e) => {
            let mut f = Frame::new(0x0e, &e.position);
            f.number(e.barcode.magnification);
            f.flag(level(e.error_correction));
            f.data(e.data.as_bytes());
            f
        }
        LabelElement::Maxicode(e) => {
            let mut f = Frame::new(0x0f, &e.position);
            f.number(e.code.mode);
            f.data(e.data.as_bytes());
            f
        }
        LabelElement::BarcodeUcpe(e) => {
            let b = &e.barcode;
            let mut f = bars(0x10, &e.position, b.orientation as u8, e.width, b.height, b.line);
            f.data(e.data.as_bytes());
            f
        }
        other => panic!("no EPL line yields {other:?}"),
    }
}

/// What the frames of all bar codes of `B` begin with.
fn bars(kind: u8, at: &LabelPosition, rotation: u8, narrow: i32, height: i32, line: bool) -> Frame {
    let mut f = Frame::new(kind, at);
    f.flag(rotation);
    f.numbers(&[narrow, height]);
    f.flag(line as u8);
    f
}

fn level(level: QrErrorCorrectionLevel) -> u8 {
    match level {
        QrErrorCorrectionLevel::L => b'L',
        QrErrorCorrectionLevel::M => b'M',
        QrErrorCorrectionLevel::Q => b'Q',
        QrErrorCorrectionLevel::H => b'H',
    }
}
