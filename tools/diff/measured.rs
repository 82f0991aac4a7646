//! An element with other lengths.

use crate::raw::Element;

/// The same element, its lengths as numbers of another type.
pub fn measured<A: Copy, B>(e: &Element<A>, length: impl Fn(A) -> B) -> Element<B> {
    Element {
        kind: e.kind,
        rotation: e.rotation,
        reverse: e.reverse,
        colour: e.colour,
        direction: e.direction,
        line: e.line,
        check: e.check,
        truncate: e.truncate,
        level: e.level,
        x: length(e.x),
        y: length(e.y),
        width: length(e.width),
        height: length(e.height),
        thickness: length(e.thickness),
        row_bytes: e.row_bytes,
        security: e.security,
        columns: e.columns,
        rows: e.rows,
        magnification: e.magnification,
        size: e.size,
        mode: e.mode,
        font: e.font,
        horizontal: e.horizontal,
        vertical: e.vertical,
        wide: e.wide,
        text_height: e.text_height,
        text_width: e.text_width,
        ratio: e.ratio,
        data_start: e.data_start,
        data_len: e.data_len,
    }
}
