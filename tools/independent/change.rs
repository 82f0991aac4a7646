//! One line of a file changed (02, K14): what becomes of the listing, told from the listing before and the two lines alone.

use crate::answers::frame;
use crate::made;
use crate::reading::{unit, whole, Says};
use crate::tally::Tally;
use inputs::Maker;

/// What a change does to a listing.
pub struct Due {
    /// An `N` stands between the line and the next print line or the end.
    cleared: bool,
    /// Labels that are printed before the line.
    label: usize,
    /// Elements pending before the line, and those that come behind it up to the print line or the end.
    before: usize,
    behind: usize,
    /// Sets and copies of the next print line, if there is one.
    print: Option<(i32, i32)>,
    /// Whether the line yielded an element, and the frame that the new one yields.
    old: bool,
    new: Option<Vec<u8>>,
}

/// An accepted file, the same with another line in it, accepted too, and what is due.
pub fn made(maker: &mut Maker, tally: &mut Tally) -> (Vec<u8>, Vec<u8>, Due) {
    loop {
        let input = made::labels(maker);
        if whole(&input, false).is_err() {
            continue;
        }
        let units = units(&input);
        let lines: Vec<usize> = (0..units.len()).filter(|&k| units[k].2 && matches!(units[k].1, Says::Nothing | Says::Draws(_))).collect();
        if lines.is_empty() {
            continue;
        }
        let k = lines[maker.rng.below(lines.len())];
        let (place, next) = (units[k].0, units.get(k + 1).map_or(input.len(), |u| u.0));
        let ending: &[u8] = if input[..next].ends_with(b"\n") { b"\n" } else { b"" };
        maker.odd = [0, 20][maker.rng.below(2)];
        let line = match maker.rng.below(6) {
            0..=1 => maker.draw(),
            2 => maker.text(),
            3 => maker.symbol(),
            4 => maker.rng.pick(inputs::PROSE).to_vec(),
            _ => b" ".to_vec(),
        };
        let after = [&input[..place], &line, ending, &input[next..]].concat();
        let new = unit(&after, place);
        let is_line = !line.contains(&b'\n') && new.next == place + line.len() + ending.len() && !is_graphic(&line);
        if !is_line || !matches!(new.says, Ok(Says::Nothing | Says::Draws(_))) || whole(&after, false).is_err() {
            continue;
        }
        let due = due(&after, &units, k, new.says.unwrap_or(Says::Nothing));
        tell(tally, &due);
        return (input, after, due);
    }
}

fn is_graphic(line: &[u8]) -> bool {
    line.trim_ascii_start().starts_with(b"GW")
}

/// The units of an accepted input: where they begin, what they say, and whether they are lines.
fn units(input: &[u8]) -> Vec<(usize, Says, bool)> {
    let mut found = Vec::new();
    let mut place = 0;
    while place < input.len() {
        let unit = unit(input, place);
        let is_line = !is_graphic(input[place..].split(|&b| b == b'\n').next().unwrap_or(b""));
        found.push((place, unit.says.unwrap_or(Says::Nothing), is_line));
        place = unit.next;
    }
    found
}

fn due(after: &[u8], units: &[(usize, Says, bool)], k: usize, new: Says) -> Due {
    let (mut label, mut pending, mut reference) = (0, 0, (0, 0));
    for (_, says, _) in &units[..k] {
        match says {
            Says::Nothing => {}
            Says::Clear => (pending, reference) = (0, (0, 0)),
            Says::Reference(x, y) => reference = (*x, y.unwrap_or(reference.1)),
            Says::Draws(_) => pending += 1,
            Says::Print(..) => {
                label += (pending > 0) as usize;
                pending = 0;
            }
        }
    }
    let mut due = Due { cleared: false, label, before: pending, behind: 0, print: None, old: matches!(units[k].1, Says::Draws(_)), new: None };
    if let Says::Draws(drawn) = new {
        due.new = drawn.at(reference).ok().map(|e| frame(after, &e));
    }
    for (_, says, _) in &units[k + 1..] {
        match says {
            Says::Clear => due.cleared = true,
            Says::Draws(_) => due.behind += 1,
            Says::Print(sets, copies) => {
                due.print = Some((*sets, *copies));
                break;
            }
            _ => {}
        }
        if due.cleared {
            break;
        }
    }
    due
}

fn tell(tally: &mut Tally, due: &Due) {
    let (others, new) = (due.before + due.behind, due.new.is_some());
    tally.branch_if(due.cleared, "an N behind the line");
    tally.branch_if(!due.cleared && due.old && new, "both yield");
    tally.branch_if(!due.cleared && !due.old && !new, "neither yields");
    if due.cleared || due.old == new {
        return;
    }
    tally.branch_if(due.print.is_some() && others > 0 && new, "one element more");
    tally.branch_if(due.print.is_some() && others > 0 && due.old, "one element less");
    tally.branch_if(due.print.is_some() && others == 0 && new, "a label gains its first element");
    tally.branch_if(due.print.is_some() && others == 0 && due.old, "a label loses its last element");
    tally.branch_if(due.print.is_none(), "pending at the end, one more or less");
}

impl Due {
    /// The listing after the change, from the one before.
    pub fn listing(&self, before: &[u8]) -> Vec<u8> {
        if self.cleared {
            return before.to_vec();
        }
        // Each label's lines without frame 00 and frame fe.
        let mut labels: Vec<(Vec<u8>, Vec<Vec<u8>>)> = Vec::new();
        let mut pending = 0;
        for line in before.split_inclusive(|&b| b == b'\n') {
            match &line[..2] {
                b"00" => labels.push((line[10..].to_vec(), Vec::new())),
                b"fe" => pending = usize::from_str_radix(&String::from_utf8_lossy(&line[2..10]), 16).expect("hexadecimal digits"),
                _ => labels.last_mut().expect("a label's frame 00").1.push(line.to_vec()),
            }
        }
        let hex = |bytes: &[u8]| bytes.iter().map(|b| format!("{b:02x}")).collect::<String>();
        if let Some((sets, copies)) = self.print {
            if self.before + self.behind + self.old as usize == 0 {
                let counts = hex(&[sets.to_be_bytes(), copies.to_be_bytes()].concat()) + "\n";
                labels.insert(self.label, (counts.into_bytes(), Vec::new()));
            }
            let elements = &mut labels[self.label].1;
            if self.old {
                elements.remove(self.before);
            }
            if let Some(frame) = &self.new {
                elements.insert(self.before, (hex(frame) + "\n").into_bytes());
            }
        } else {
            pending = pending + self.new.is_some() as usize - self.old as usize;
        }
        let mut out = Vec::new();
        for (counts, elements) in labels.iter().filter(|l| !l.1.is_empty()) {
            out.extend(format!("00{:08x}", elements.len()).bytes());
            out.extend(counts);
            elements.iter().for_each(|line| out.extend(line));
        }
        if pending > 0 {
            out.extend(format!("fe{pending:08x}\n").bytes());
        }
        out
    }
}
