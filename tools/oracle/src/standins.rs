//! Stand-ins for what the files of docs/src lean on and is not among them. Their use there shows them; nothing of an EPL file's
//! frames hangs on any value here but LineColor and ReversePrint.

pub mod line_color {
    #[derive(Clone, Copy, Debug, PartialEq, Eq)]
    pub enum LineColor {
        Black,
        White,
    }
}

pub mod reverse_print {
    #[derive(Clone, Copy, Debug, Default)]
    pub struct ReversePrint {
        pub value: bool,
    }
}

pub mod text_alignment {
    #[derive(Clone, Copy, Debug)]
    pub enum TextAlignment {
        Left,
    }
}

pub mod graphic_symbol {
    #[derive(Clone, Debug)]
    pub struct GraphicSymbol;
}

/// The fields that stored_format.rs fills.
pub mod field_info {
    use crate::elements::field_alignment::FieldAlignment;
    use crate::elements::font::FontInfo;
    use crate::elements::label_element::LabelElement;
    use crate::elements::label_position::LabelPosition;
    use crate::elements::text_flow::TextFlow;

    #[derive(Clone, Debug)]
    pub struct FieldInfo {
        pub reverse_print: super::reverse_print::ReversePrint,
        pub element: Option<Box<LabelElement>>,
        pub font: FontInfo,
        pub position: LabelPosition,
        pub alignment: FieldAlignment,
        pub width: i32,
        pub width_ratio: f64,
        pub height: i32,
        pub current_charset: i32,
        pub text_flow: TextFlow,
    }
}

/// The font files that font_face.rs names: empty, nothing is drawn.
pub mod assets {
    pub const FONT_DEJAVU_SANS_MONO: &[u8] = &[];
    pub const FONT_DEJAVU_SANS_MONO_BOLD: &[u8] = &[];
    pub const FONT_ZERO_SUBSTITUTE: &[u8] = &[];
    pub const FONT_ZPL_GS: &[u8] = &[];
}

/// The measures that font_face.rs names: any number does, nothing is drawn.
pub mod tuning {
    pub const FONT0_LINE_HEIGHT: f64 = 1.0;
    pub const FONT0_RATIO: f64 = 1.0;
    pub const FONT1_CAP_SCALE: f64 = 1.0;
    pub const FONT1_LINE_HEIGHT: f64 = 1.0;
    pub const FONT1_RATIO: f64 = 1.0;
    pub const FONT1_X_OFFSET: f64 = 1.0;
}
