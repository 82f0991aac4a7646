//! Lines of every command, whole files, damaged files.

use crate::tables::*;
use crate::Rng;

/// Makes lines and files. One part in `odd` is odd; 0 makes only plain parts.
pub struct Maker {
    pub rng: Rng,
    pub odd: usize,
}

impl Maker {
    pub fn new(seed: u64, odd: usize) -> Maker {
        Maker { rng: Rng::new(seed), odd }
    }

    fn is_odd(&mut self) -> bool {
        self.odd > 0 && self.rng.one_in(self.odd)
    }

    /// A number below limit, or an odd one, maybe between blanks.
    pub fn number(&mut self, limit: usize) -> Vec<u8> {
        let value = if self.is_odd() { self.rng.pick(NUMBERS).to_vec() } else { self.rng.below(limit).to_string().into_bytes() };
        self.padded(value)
    }

    /// A type of the table; odd: of either command or of none; maybe between blanks.
    fn kind(&mut self, table: &[&'static [u8]]) -> Vec<u8> {
        let table = if self.is_odd() { [NO_TYPES, BARS, SYMBOLS][self.rng.below(3)] } else { table };
        let value = self.rng.pick(table).to_vec();
        self.padded(value)
    }

    fn padded(&mut self, value: Vec<u8>) -> Vec<u8> {
        if self.is_odd() {
            [self.blanks(), value, self.blanks()].concat()
        } else {
            value
        }
    }

    /// Up to three blanks; an odd one is none.
    pub fn blanks(&mut self) -> Vec<u8> {
        let n = self.rng.below(4);
        (0..n).flat_map(|_| if self.is_odd() { self.rng.pick(NO_BLANKS) } else { self.rng.pick(BLANKS) }).copied().collect()
    }

    /// Data without LF: words, at times undecodable, with quotes inside, MaxiCode's header, or nothing.
    pub fn data(&mut self) -> Vec<u8> {
        if !self.is_odd() {
            return self.rng.pick(WORDS).to_vec();
        }
        let mut data = Vec::new();
        for _ in 0..self.rng.below(6) {
            match self.rng.below(6) {
                0 => data.extend(self.rng.pick(CODES)),
                1 => data.extend(self.rng.pick(WORDS)),
                2 => data.extend(self.rng.pick(BLANKS)),
                3 => data.extend(HEADER),
                4 => data.extend(self.rng.below(10_000_000).to_string().bytes()),
                _ => data.extend(b"\""),
            }
        }
        data
    }

    /// Fields with commas between them; odd: one lost, one too many, or blank ones behind.
    fn joined(&mut self, mut fields: Vec<Vec<u8>>) -> Vec<u8> {
        if self.is_odd() {
            match self.rng.below(4) {
                0 => drop(fields.pop()),
                1 => fields.push(self.blanks()),
                2 => fields.push(Vec::new()),
                _ => fields.insert(0, Vec::new()),
            }
        }
        fields.join(&b',')
    }

    /// Parameters and data of `A`, `B`, `b`; odd: other commas or quotes.
    fn quoted(&mut self, letter: &[u8], fields: Vec<Vec<u8>>, data: Vec<u8>) -> Vec<u8> {
        let params = self.joined(fields);
        let (open, close): (&[u8], &[u8]) = match if self.is_odd() { self.rng.below(7) } else { 7 } {
            0 => (b"\"", b"\""),
            1 => (b",,,\"", b"\""),
            2 => (b", \"", b"\""),
            3 => (b",", b"\""),
            4 => (b",\"", b""),
            5 => (b",\"\"", b""),
            6 => (b",\"", b"\" trailing"),
            _ => (b",\"", b"\""),
        };
        [letter, &params, open, &data, close].concat()
    }

    pub fn text(&mut self) -> Vec<u8> {
        let reverse: &[&[u8]] = if self.is_odd() { &[b"r", b"RR", b"", b" R", b"R\xc2\xa0", b"\xff"] } else { &[b"N", b"R"] };
        let fields = vec![
            self.number(800),
            self.number(800),
            self.number(4),
            self.number(7),
            self.multiplier(),
            self.multiplier(),
            self.rng.pick(reverse).to_vec(),
        ];
        let data = self.data();
        self.quoted(b"A", fields, data)
    }

    /// Odd ones reach the font products' limits.
    fn multiplier(&mut self) -> Vec<u8> {
        if self.is_odd() && self.rng.one_in(4) {
            return self.rng.pick(MULTIPLIERS).to_vec();
        }
        self.number(9)
    }

    pub fn bars(&mut self) -> Vec<u8> {
        let line: &[&[u8]] = if self.is_odd() { &[b"b", b"BB", b"", b" B", b"B\xe3\x80\x80", b"\xff"] } else { &[b"B", b"N"] };
        let fields = vec![
            self.number(800),
            self.number(800),
            self.number(4),
            self.kind(BARS),
            self.number(6),
            self.number(12),
            self.number(200),
            self.rng.pick(line).to_vec(),
        ];
        let data = self.data();
        self.quoted(b"B", fields, data)
    }

    pub fn symbol(&mut self) -> Vec<u8> {
        let mut fields = vec![self.number(800), self.number(800), self.kind(SYMBOLS)];
        for _ in 0..self.rng.below(5) {
            let option = self.rng.pick(OPTIONS).to_vec();
            match fields.last_mut() {
                Some(last) if self.odd > 0 && self.rng.one_in(3) => last.extend(option),
                _ => fields.push(option),
            }
        }
        let data = if self.rng.one_in(4) { self.maxicode_data() } else { self.data() };
        self.quoted(b"b", fields, data)
    }

    /// Data around MaxiCode's header: a class of service, a country and a postal code before it.
    pub fn maxicode_data(&mut self) -> Vec<u8> {
        let digits = self.rng.below(12);
        let mut data: Vec<u8> = (0..digits).map(|_| b'0' + self.rng.below(10) as u8).collect();
        if self.is_odd() {
            let at = self.rng.below(data.len() + 1);
            let piece: &[u8] = if self.rng.one_in(2) { self.rng.pick(CODES) } else { b"K" };
            data.splice(at..at, piece.iter().copied());
        }
        let header = if self.is_odd() { &HEADER[..self.rng.below(7)] } else { HEADER };
        let rest: &[u8] = self.rng.pick(WORDS);
        [&*data, header, b"96", rest].concat()
    }

    /// `LO`, `LW`, `LE`, `LS`, `X`.
    pub fn draw(&mut self) -> Vec<u8> {
        let letters: &[u8] = self.rng.pick(&[&b"LO"[..], b"LW", b"LE", b"LS", b"X"]);
        let count = if letters == b"LS" || letters == b"X" { 5 } else { 4 };
        let fields = (0..count).map(|_| self.number(800)).collect();
        [letters, &self.joined(fields)].concat()
    }

    pub fn reference(&mut self) -> Vec<u8> {
        let x = if self.is_odd() { self.number(100) } else { self.rng.below(100).to_string().into_bytes() };
        let fields = if self.rng.one_in(4) { vec![x] } else { vec![x, self.number(100)] };
        [b"R", &*self.joined(fields)].concat()
    }

    pub fn print(&mut self) -> Vec<u8> {
        let counts: &[&[u8]] = if self.is_odd() { &[b"1,", b",1", b"1,1,1", b"1 ,1", b"1, 1", b"+1,1", b" 1", b"x", b"-1", b"\xff"] } else { PRINTS };
        let count: &[u8] = self.rng.pick(counts);
        [b"P", count].concat()
    }

    /// A graphic block of at most `most` bytes of payload; odd: payload cut or too long, odd numbers.
    pub fn graphic(&mut self, most: usize) -> Vec<u8> {
        let width = self.rng.below(9);
        let lines = if width == 0 { self.rng.below(9) } else { self.rng.below(most / width + 1) };
        let mut fields = vec![self.number(800), self.number(800), width.to_string().into_bytes(), lines.to_string().into_bytes()];
        if self.is_odd() {
            fields[2 + self.rng.below(2)] = self.number(4);
        }
        let mut block = [b"GW", &*self.joined(fields), b","].concat();
        if self.is_odd() {
            let ascii: &[&[u8]] = &[b" ", b"\t", b"\x0c", b"\r", b"\x0b", b"  ", b"\xc2\xa0"];
            block = [self.rng.pick(ascii), &block].concat();
        }
        let mut payload = self.payload(width * lines);
        if self.is_odd() {
            payload.truncate(self.rng.below(payload.len() + 1));
        }
        [block, payload].concat()
    }

    /// Payload bytes: any, or many LF, commas and commands among them.
    pub fn payload(&mut self, length: usize) -> Vec<u8> {
        let busy = self.rng.one_in(2);
        let mut payload = Vec::with_capacity(length + 24);
        while payload.len() < length {
            if busy {
                payload.extend(self.rng.pick(TOKENS));
            } else {
                payload.extend(self.rng.next().to_be_bytes());
            }
        }
        payload.truncate(length);
        payload
    }

    /// One unit without its line's end.
    pub fn unit(&mut self) -> Vec<u8> {
        let unit = match self.rng.below(16) {
            0..=2 => self.text(),
            3..=4 => self.bars(),
            5..=7 => self.symbol(),
            8..=9 => self.draw(),
            10 => self.reference(),
            11 => b"N".to_vec(),
            12 => self.print(),
            13..=14 => return self.graphic(40),
            _ => self.rng.pick(PROSE).to_vec(),
        };
        if self.is_odd() {
            [self.blanks(), unit, self.blanks()].concat()
        } else {
            unit
        }
    }

    /// What ends a unit: LF, at times CR LF, seldom nothing or a blank line.
    fn ending(&mut self) -> &'static [u8] {
        match self.rng.below(16) {
            0..=3 => b"\r\n",
            4 => b"\n\n",
            5 if self.is_odd() => b"",
            _ => b"\n",
        }
    }

    /// A file of up to `most` units.
    pub fn file(&mut self, most: usize) -> Vec<u8> {
        let mut file = Vec::new();
        for _ in 0..=self.rng.below(most) {
            file.extend(self.unit());
            file.extend(self.ending());
        }
        if self.rng.one_in(4) {
            file.pop();
        }
        file
    }

    /// Graphic blocks, some directly behind another, with few lines between them.
    pub fn graphics(&mut self, most: usize) -> Vec<u8> {
        let mut file = Vec::new();
        for _ in 0..=self.rng.below(5) {
            file.extend(self.graphic(most));
            match self.rng.below(6) {
                0..=1 => {}
                2 => file.extend([self.unit(), b"\n".to_vec()].concat()),
                3 => file.extend(b"P\n"),
                _ => file.extend(self.ending()),
            }
        }
        file
    }

    /// A string of up to `most` tokens.
    pub fn tokens(&mut self, most: usize) -> Vec<u8> {
        let n = self.rng.below(most + 1);
        (0..n).flat_map(|_| self.rng.pick(TOKENS)).copied().collect()
    }

    /// Up to `most` bytes, drawn from all, or from few.
    pub fn bytes(&mut self, most: usize) -> Vec<u8> {
        let few: &[&[u8]] =
            &[b"GW,\n01", b"AB b,\"\n1", b"LOSWX,-1\n", b"RNP1,\n -", b"\xe2\x80\xa8\xc2\xa0\x85 N\n", b"\"b,MQ12\xc3\xa9\xff\n"];
        let alphabet = self.rng.pick(few);
        let any = self.rng.one_in(3);
        let n = self.rng.below(most + 1);
        (0..n).map(|_| if any { self.rng.next() as u8 } else { alphabet[self.rng.below(alphabet.len())] }).collect()
    }

    /// A copy with up to three bytes or short runs deleted, changed, inserted or doubled, or with its end cut off.
    pub fn damaged(&mut self, file: &[u8]) -> Vec<u8> {
        let mut file = file.to_vec();
        for _ in 0..=self.rng.below(3) {
            let at = self.rng.below(file.len() + 1);
            let end = file.len().min(at + 1 + if self.rng.one_in(4) { self.rng.below(12) } else { 0 });
            let piece = match self.rng.below(3) {
                0 => self.rng.pick(TOKENS).to_vec(),
                1 => vec![b"\",\n-0GW \r"[self.rng.below(9)]],
                _ => vec![self.rng.next() as u8],
            };
            match self.rng.below(9) {
                0..=2 => drop(file.splice(at..end, [])),
                3..=5 => drop(file.splice(at..end, piece)),
                6 => drop(file.splice(at..at, piece)),
                7 => drop(file.splice(at..at, file[at..end].to_vec())),
                _ => file.truncate(at),
            }
        }
        file
    }

    /// A label as a core store prints it, for a box, a jar or a bag: every command, one bar code of `B` and one of `b`.
    pub fn label(&mut self) -> Vec<u8> {
        let mut n = |limit| self.rng.below(limit);
        let item = ["CORE BOX", "JAR", "BAG"][n(3)];
        let (well, sample, depth) = (1 + n(9), n(10_000), n(300_000));
        let name = format!("NH{well}-{sample:04}");
        let depth = format!("{}.{:02}", depth / 100, depth % 100);
        let bars = String::from_utf8_lossy(BARS[n(BARS.len())]);
        let digits = match &*bars {
            "E30" => "5901234123457",
            "E80" => "96385074",
            "UA0" => "012345678905",
            "UE0" => "01234565",
            _ => &name,
        };
        let symbol = ["A,d4,e23", "D,c18,r18,h6", "M,m4", "P,s5,x3,y12,r10,l5,t0,o0", "Q,m2,s4,eM,iA"][n(5)];
        let lines = [
            "N".to_string(),
            "q609".to_string(),
            "Q406,24".to_string(),
            format!("R{},{}", n(30), n(30)),
            format!("A20,10,{},4,1,1,N,\"{item} {sample}\"", n(4)),
            format!("A20,40,0,{},{},{},R,\"{depth} m\"", 1 + n(5), 1 + n(3), 1 + n(3)),
            format!("LO10,{},560,3", 70 + n(20)),
            format!("LW12,90,{},2", 1 + n(40)),
            format!("B20,100,{},{bars},{},{},60,{},\"{digits}\"", n(4), 1 + n(3), 2 + n(7), ["B", "N"][n(2)]),
            format!("b420,20,{symbol},\"{name}/{depth}\""),
            format!("X5,5,2,{},400", 500 + n(100)),
            format!("LS10,{},1,600,{}", n(400), n(400)),
        ];
        let (end, rows, print) = (["\n", "\n", "\r\n"][n(3)], n(6), ["P1", "P", "P2"][n(3)]);
        let block = if rows == 0 { String::new() } else { format!("GW500,{},2,{rows},", n(300)) };
        let tail = if rows == 0 { "" } else { end };
        let payload = self.payload(2 * rows);
        [(lines.join(end) + end + &block).as_bytes(), &payload, tail.as_bytes(), print.as_bytes(), end.as_bytes()].concat()
    }
}
