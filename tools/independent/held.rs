//! One case of each entry point: what is made for it, what it should answer, and what the library answers, with enough room and with too little.

use crate::answers;
use crate::change;
use crate::lent::Lent;
use crate::made;
use crate::raw::{self, Checked, Element, Entry, Joined, Label300, Written};
use crate::reading::{normalised, refusal, whole, Label, Refusal, LIMIT};
use crate::tally::Tally;
use inputs::Maker;
use std::borrow::Cow;
use std::fmt::Debug;
use std::sync::atomic::AtomicUsize;
use std::sync::{Arc, Mutex};

/// A case at work: where made things come from, what was made, what is lent, what was seen.
pub struct Case {
    pub maker: Maker,
    pub lent: Lent,
    pub tally: Tally,
    pub watched: Arc<Watched>,
    /// Which of the long inputs it is to have, if any.
    pub long: Option<usize>,
}

/// What others may see of a thread: how many cases it has done, and the inputs of the one at work, for a report.
#[derive(Default)]
pub struct Watched {
    pub done: AtomicUsize,
    pub inputs: Mutex<Vec<Cow<'static, [u8]>>>,
}

impl Watched {
    pub fn add(&self, input: &Cow<'static, [u8]>) {
        self.inputs.lock().expect("no thread fails with it").push(input.clone());
    }
}

/// The long inputs of each entry point: two over the limit, the others at it.
pub const LONG: usize = 7;
pub const OVER: usize = 2;

pub type Held = Result<(), String>;

/// Values that are the same to the bit.
pub trait Same: Copy {
    fn is(&self, other: &Self) -> bool;
}

impl Same for u8 {
    fn is(&self, other: &u8) -> bool {
        self == other
    }
}

impl Same for usize {
    fn is(&self, other: &usize) -> bool {
        self == other
    }
}

impl Same for Entry {
    fn is(&self, other: &Entry) -> bool {
        self == other
    }
}

impl<L: Copy + PartialEq> Same for Element<L> {
    fn is(&self, other: &Element<L>) -> bool {
        let bits = |e: &Element<L>| [e.text_height, e.text_width, e.ratio].map(f64::to_bits);
        let whole = |e: &Element<L>| Element { text_height: 0.0, text_width: 0.0, ratio: 0.0, ..*e };
        bits(self) == bits(other) && whole(self) == whole(other)
    }
}

/// What a call answers when it fills, when the room is too short, and when it is refused.
pub struct Said<A> {
    pub filled: A,
    pub short: A,
    pub refused: fn(Refusal) -> A,
    pub number: fn(&A) -> u32,
}

impl Case {
    /// The made file of this case.
    fn file(&mut self) -> Cow<'static, [u8]> {
        let file = match self.long {
            Some(which) => made::long_file(&mut self.maker.rng, which),
            None => Cow::Owned(made::file(&mut self.maker)),
        };
        self.watched.add(&file);
        file
    }

    /// Answers as due, fills as due and changes nothing else: with exactly enough or more, and with one less or none.
    pub fn fills<T: Same + Debug, A: PartialEq + Debug + Copy>(&mut self, input: &[u8], due: &Result<Vec<T>, Refusal>, said: Said<A>, call: impl Fn(&[u8], &mut [T]) -> A) -> Held {
        let rng = &mut self.maker.rng;
        let rooms = match due {
            Ok(list) if list.is_empty() => vec![0, rng.below(9)],
            Ok(list) => {
                let n = list.len();
                vec![[n, n, n + 1, n + rng.below(40)][rng.below(4)], [n - 1, n - 1, 0, rng.below(n)][rng.below(4)]]
            }
            Err(_) => vec![rng.below(300), 0],
        };
        for room in rooms {
            let (answer, list): (A, &[T]) = match due {
                Ok(list) if room >= list.len() => (said.filled, list),
                Ok(_) => (said.short, &[]),
                Err(refused) => ((said.refused)(*refused), &[]),
            };
            let got = self.lent.call(input, room, &call);
            self.tally.answer((said.number)(&got));
            let written: &[T] = self.lent.written(list.len());
            let wrong = if got != answer {
                format!("{got:?} given, {answer:?} expected")
            } else if !written.iter().zip(list).all(|(a, b)| a.is(b)) {
                format!("given\n{written:?}\nexpected\n{list:?}")
            } else if let Err(wrong) = self.lent.kept_but::<T>(list.len(), input) {
                wrong
            } else {
                continue;
            };
            return Err(format!("room for {room}: {wrong}"));
        }
        Ok(())
    }

    /// As `fills`, for those that answer a number and a place; `short` is the number where the room is too short.
    pub fn writes<T: Same + Debug>(&mut self, input: &[u8], due: &Result<Vec<T>, Refusal>, short: u32, call: impl Fn(&[u8], &mut [T]) -> Written) -> Held {
        let n = due.as_ref().map_or(0, Vec::len);
        let said = Said { filled: Written { number: 0, place: n }, short: Written { number: short, place: n }, refused: |r| Written { number: r.number, place: r.place }, number: |w| w.number };
        self.fills(input, due, said, call)
    }

    /// K12, and 01's frames: the listing.
    pub fn list(&mut self) -> Held {
        let input = self.file();
        let file = whole(&input, false);
        self.tally.branch_if(file.as_ref().is_ok_and(|f| f.pending > 0 && !f.labels.is_empty()), "labels, then frame fe");
        self.tally.branch_if(file.as_ref().is_ok_and(|f| f.pending > 0 && f.labels.is_empty()), "frame fe alone");
        let due = file.map(|file| answers::listing(&input, &file));
        self.writes(&input, &due, 15, raw::list)
    }

    /// 01's normalised text.
    pub fn normalise(&mut self) -> Held {
        let input = self.file();
        let due = if input.len() > LIMIT { Err(refusal(14, 0)) } else { Ok(normalised(&input)) };
        self.writes(&input, &due, 15, raw::normalise)
    }

    /// K6: the verdict.
    pub fn check(&mut self) -> Held {
        let input = self.file();
        let strict = whole(&input, true);
        let due = strict.as_ref().map_or_else(|r| Checked { number: r.number, field: r.field, held: r.held, place: r.place }, |_| Checked::default());
        let held = ["", "17, an empty field", "17, no number", "17, beyond 32 bits", "18"];
        self.tally.branch_if(due.held > 0, held[due.held as usize]);
        let plain = whole(&input, false);
        // "A file that the profile accepts is accepted by the plain reading"; "a refusal other than 17 and 18 is the plain reading's own"
        let own = matches!(due.number, 17 | 18);
        if !own && plain.as_ref().err().copied() != strict.err() {
            return Err("the papers: the strict reading is not the plain one".to_string());
        }
        self.tally.branch_if(own && plain.is_ok(), "17 or 18, accepted plainly");
        self.tally.branch_if(own && plain.as_ref().is_err_and(|p| p.place == due.place), "17 or 18, the line refused plainly");
        let got = self.lent.call(&input, 0, |input, _: &mut [u8]| raw::check(input));
        self.tally.answer(got.number);
        self.lent.kept_but::<u8>(0, &input)?;
        if got == due {
            Ok(())
        } else {
            Err(format!("{got:?} given, {due:?} expected"))
        }
    }

    /// K6: the listing under the profile.
    pub fn strict_list(&mut self) -> Held {
        let input = self.file();
        let due = whole(&input, true).map(|file| answers::listing(&input, &file));
        self.writes(&input, &due, 15, raw::strict_list)
    }

    /// K8: the index.
    pub fn index(&mut self) -> Held {
        let input = self.file();
        let due = whole(&input, false).map(|file| answers::index(&file));
        if let Ok(list) = &due {
            let behind = |e: &Entry, k: usize| e.first > if k == 0 { 0 } else { list[k - 1].last };
            self.tally.branch_if(list.is_empty(), "no labels");
            self.tally.branch_if(list.len() > 1, "several labels");
            self.tally.branch_if(list.iter().enumerate().any(|(k, e)| behind(e, k)), "behind a print line that printed nothing");
            self.tally.branch_if(list.iter().any(|e| (e.x, e.y) != (0, 0)), "a reference at the start");
            self.tally.branch_if(list.last().is_some_and(|e| e.last == input.len()), "a label to the end of input");
        }
        self.writes(&input, &due, 20, raw::index)
    }

    /// A made file, a list of entries and a number, and the label that is opened so.
    fn opened(&mut self) -> (Cow<'static, [u8]>, Vec<Entry>, usize, Result<Label, Refusal>) {
        let input = self.file();
        let file = whole(&input, false).ok();
        let (entries, number, own) = made::entries(&mut self.maker.rng, &input, file.as_ref());
        let label = answers::open(&input, &entries, number);
        self.tally.branch_if(label.is_ok() && own, "an entry of the index");
        self.tally.branch_if(label.is_ok() && !own, "another entry that yields a label");
        self.tally.branch_if(label.is_ok() && file.is_none(), "a label of a refused file");
        self.tally.branch_if(number >= entries.len() && input.len() <= LIMIT, "21 past the list");
        self.tally.branch_if(number < entries.len() && label.as_ref().is_err_and(|r| r.number == 21), "21 without a label");
        if let (true, Some(file), Ok(label)) = (own, &file, &label) {
            let [mut alone, mut listed] = [Vec::new(), Vec::new()];
            answers::label_lines(&mut alone, &input, label);
            answers::label_lines(&mut listed, &input, &file.labels[number]);
            assert!(alone == listed, "a label read from its entry alone has the frames of the listing");
        }
        (input, entries, number, label)
    }

    /// K8: opening.
    pub fn open(&mut self) -> Held {
        let (input, entries, number, label) = self.opened();
        let due = label.map(|label| {
            let mut out = Vec::new();
            answers::label_lines(&mut out, &input, &label);
            out
        });
        self.writes(&input, &due, 15, |input, out| raw::open(input, &entries, number, out)).map_err(|wrong| told(&entries, number, wrong))
    }

    /// K9: positions in a rectangle.
    pub fn inside(&mut self) -> Held {
        let (input, entries, number, label) = self.opened();
        let r = made::rectangle(&mut self.maker.rng, label.as_ref().ok());
        let due = answers::inside(&input, &entries, number, r);
        if let (Ok(list), Ok(label)) = (&due, &label) {
            self.tally.branch_if(list.is_empty(), "none");
            self.tally.branch_if(!list.is_empty() && list.len() < label.elements.len(), "some, not all");
            self.tally.branch_if(label.elements.iter().any(|(_, e)| [r.x1, r.x2].contains(&e.x) && r.y1 <= e.y && e.y <= r.y2), "on an edge");
        }
        self.tally.branch_if(due.as_ref().is_err_and(|d| d.number == 22) && label.as_ref().is_err_and(|l| l.number == 21), "22 before 21");
        self.writes(&input, &due, 15, |input, list| raw::inside(input, &entries, number, r, list)).map_err(|wrong| told(&entries, number, format!("{r:?}, {wrong}")))
    }

    /// K9: boxes and diagonals that share a point with a rectangle.
    pub fn touching(&mut self) -> Held {
        let (input, entries, number, label) = self.opened();
        let r = made::rectangle(&mut self.maker.rng, label.as_ref().ok());
        let due = answers::touching(&input, &entries, number, r);
        if let (Ok(list), Ok(label)) = (&due, &label) {
            let of = |i: &usize| &label.elements[*i].1;
            let past = |e: &Element| e.x as i64 + e.width as i64 > i32::MAX as i64 || e.y as i64 + e.height as i64 > i32::MAX as i64;
            self.tally.branch_if(list.is_empty(), "none");
            self.tally.branch_if(list.iter().any(|i| past(of(i))), "a far edge past 32 bits");
            self.tally.branch_if(list.iter().any(|i| of(i).x as i64 + of(i).width as i64 == r.x1 as i64 || of(i).x == r.x2), "by an edge");
            self.tally.branch_if(label.elements.iter().any(|(_, e)| !matches!(e.kind, 2 | 3) && r.x1 <= e.x && e.x <= r.x2 && r.y1 <= e.y && e.y <= r.y2), "no box and no diagonal");
        }
        self.tally.branch_if(due.as_ref().is_err_and(|d| d.number == 22) && label.as_ref().is_err_and(|l| l.number == 21), "22 before 21");
        self.writes(&input, &due, 15, |input, list| raw::touching(input, &entries, number, r, list)).map_err(|wrong| told(&entries, number, format!("{r:?}, {wrong}")))
    }

    /// K9: the nearest element.
    pub fn nearest(&mut self) -> Held {
        let (input, entries, number, label) = self.opened();
        let [x, y] = [false, true].map(|along_y| made::edge(&mut self.maker.rng, label.as_ref().ok(), along_y));
        let due = answers::nearest(&input, &entries, number, x, y).map_or_else(|r| Written { number: r.number, place: r.place }, |place| Written { number: 0, place });
        if let Ok(label) = &label {
            let far = |e: &Element| (e.x as i64 - x as i64).abs().max((e.y as i64 - y as i64).abs());
            let least = far(&label.elements[due.place].1);
            self.tally.branch_if(due.place > 0, "not the first");
            self.tally.branch_if(label.elements.iter().filter(|(_, e)| far(e) == least).count() > 1, "the earlier of equals");
            self.tally.branch_if(least > i32::MAX as i64, "further than 32 bits");
        }
        let got = self.lent.call(&input, 0, |input, _: &mut [u8]| raw::nearest(input, &entries, number, x, y));
        self.tally.answer(got.number);
        self.lent.kept_but::<u8>(0, &input)?;
        if got == due {
            Ok(())
        } else {
            Err(told(&entries, number, format!("{x},{y}: {got:?} given, {due:?} expected")))
        }
    }

    /// K11: from 203 to 300 dots.
    pub fn to_300(&mut self) -> Held {
        let (input, entries, number, label) = self.opened();
        let due = answers::to_300(&input, &entries, number);
        let both = |label: &Label, place: usize| label.elements.iter().any(|(at, e)| *at == place && matches!(e.kind, 2 | 3) && answers::at_300(e.width) > i32::MAX as i128);
        self.tally.branch_if(label.is_ok_and(|label| due.as_ref().is_err_and(|d| d.1.number == 13 && both(&label, d.1.place))), "13 before 19 of a line");
        self.tally.branch_if(due.as_ref().is_err_and(|d| d.0 && d.1.number == 13), "13 of a result");
        self.tally.branch_if(due.as_ref().is_err_and(|d| d.0 && d.1.number == 19), "19 of a result");
        let (sets, copies) = due.as_ref().map_or((0, 0), |(label, _)| (label.sets, label.copies));
        let due = due.map(|(_, list)| list).map_err(|(_, refused)| refused);
        if let Ok(list) = &due {
            self.tally.branch_if(list.iter().any(|e| e.x.0 < 0), "a position below zero");
            self.tally.branch_if(list.iter().any(|e| [e.x.0, e.y.0].iter().any(|n| n.unsigned_abs() > 2_147_483_600)), "a position next to the end of 32 bits");
        }
        let n = due.as_ref().map_or(0, Vec::len);
        let said = Said {
            filled: Label300 { number: 0, place: n, sets, copies },
            short: Label300 { number: 15, place: n, sets: 0, copies: 0 },
            refused: |r| Label300 { number: r.number, place: r.place, sets: 0, copies: 0 },
            number: |l| l.number,
        };
        self.fills(&input, &due, said, |input, list| raw::to_300(input, &entries, number, list)).map_err(|wrong| told(&entries, number, wrong))
    }

    /// K13: two files joined.
    pub fn join(&mut self) -> Held {
        let (first, second) = self.two_files();
        let due = answers::join(&first, &second);
        let both = due.as_ref().is_err_and(|d| d.0 == 1) && whole(&second, false).is_err();
        self.tally.branch_if(due.as_ref().is_err_and(|d| d.0 == 1), "the first refused");
        self.tally.branch_if(due.as_ref().is_err_and(|d| d.0 == 2), "the second refused");
        self.tally.branch_if(both, "both refused");
        self.tally.branch_if(due.as_ref().is_err_and(|d| d.0 == 1 && d.1.number == 14), "14 of the first");
        self.tally.branch_if(due.as_ref().is_err_and(|d| d.0 == 2 && d.1.number == 14), "14 of the second");
        self.tally.branch_if(due.as_ref().is_err_and(|d| d.0 == 1 && d.1.number != 14) && second.len() > LIMIT, "a line of the first before 14 of the second");
        self.tally.branch_if(due.as_ref().is_ok_and(|text| text.len() == LIMIT), "exactly 16,777,216 bytes");
        self.tally.branch_if(due.as_ref().is_err_and(|d| d.1 == refusal(25, LIMIT + 1)), "one byte more");
        if let Ok(text) = &due {
            let read = whole(text, false).map(|file| answers::listing(text, &file));
            if read != Ok(answers::joined_listing(&first, &second)) {
                return Err("the papers: the joined text has other labels than the two files".to_string());
            }
        }
        let n = due.as_ref().map_or(0, Vec::len);
        let (file, due) = match due {
            Ok(text) => (0, Ok(text)),
            Err((file, refused)) => (file, Err(refused)),
        };
        let refused: fn(Refusal) -> Joined = match file {
            0 => |r| Joined { number: r.number, file: 0, place: r.place },
            1 => |r| Joined { number: r.number, file: 1, place: r.place },
            _ => |r| Joined { number: r.number, file: 2, place: r.place },
        };
        let said = Said { filled: Joined { number: 0, file: 0, place: n }, short: Joined { number: 15, file: 0, place: n }, refused, number: |j| j.number };
        let kept = second.clone();
        self.fills(&first, &due, said, |first, out| raw::join(first, &second, out))?;
        if kept == second {
            Ok(())
        } else {
            Err("the second file is changed".to_string())
        }
    }

    /// Two files; the long ones are over the limit, or are joined to it and up to three bytes past it.
    fn two_files(&mut self) -> (Cow<'static, [u8]>, Cow<'static, [u8]>) {
        let line = |n: usize| Cow::Borrowed(&made::long()[..n]);
        let other = |maker: &mut Maker| Cow::Owned(if maker.rng.one_in(4) { made::file(maker) } else { made::labels(maker) });
        let pair = match self.long {
            Some(0) => (line(LIMIT + 1), other(&mut self.maker)),
            Some(1) => (Cow::Borrowed(&b"LO1,2,3,4\nP"[..]), line(LIMIT + 2)),
            Some(6) => (Cow::Borrowed(&b"N\nLO1"[..]), line(LIMIT + 2)),
            // Either line gets an LF, and `N` LF stands between them.
            Some(which) => (line(LIMIT / 2), line(LIMIT / 2 - 4 + which - OVER)),
            None => (Cow::Owned(made::file(&mut self.maker)), other(&mut self.maker)),
        };
        self.watched.add(&pair.0);
        self.watched.add(&pair.1);
        pair
    }

    /// K14: one line changed.
    pub fn change(&mut self) -> Held {
        let (before, after, due) = change::made(&mut self.maker, &mut self.tally);
        self.watched.add(&Cow::Owned(before.clone()));
        self.watched.add(&Cow::Owned(after.clone()));
        let listed = |lent: &mut Lent, input: &[u8]| {
            let got = lent.call(input, 16 * input.len(), raw::list);
            (got.number, if got.number == 0 { lent.written::<u8>(got.place).to_vec() } else { Vec::new() })
        };
        let (number, text) = listed(&mut self.lent, &before);
        if number != 0 {
            return Err(format!("refused {number} before the change"));
        }
        let (number, now) = listed(&mut self.lent, &after);
        self.tally.answer(number);
        let due = due.listing(&text);
        if number == 0 && now == due {
            return Ok(());
        }
        Err(format!("listed, refused {number}, as\n{}expected\n{}", now.escape_ascii(), due.escape_ascii()))
    }
}

fn told(entries: &[Entry], number: usize, wrong: String) -> String {
    format!("number {number} of {entries:?}: {wrong}")
}
