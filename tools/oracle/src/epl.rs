//! The EPL module: the files of docs/src/src/parsers/epl, unchanged, and a way to what they keep to themselves.

#[path = "../../../docs/src/src/parsers/epl/fonts.rs"]
mod fonts;
#[path = "../../../docs/src/src/parsers/epl/format.rs"]
mod format;
#[path = "../../../docs/src/src/parsers/epl/parser.rs"]
mod parser;

use crate::elements::label_info::LabelInfo;

pub use format::format_epl;

pub fn parse(input: &[u8]) -> Result<Vec<LabelInfo>, String> {
    parser::EplParser::new().parse(input)
}

/// Past the payload of the graphic block on the line from start to end, where there is a well-formed one.
pub fn block_end(input: &[u8], start: usize, end: usize) -> Option<usize> {
    let span = parser::gw_span(input, start, end).ok()??;
    Some(span.data_end)
}
