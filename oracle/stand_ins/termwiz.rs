//! As much of termwiz as the prompt names: keys going in, changes of the screen coming out.
//! Only the names and shapes are termwiz's; nothing here draws.

pub mod cell {
    use crate::color::ColorAttribute;

    #[derive(Clone, Debug, Default, PartialEq, Eq)]
    pub struct CellAttributes {
        foreground: ColorAttribute,
        background: ColorAttribute,
    }

    impl CellAttributes {
        pub fn set_foreground(&mut self, colour: impl Into<ColorAttribute>) -> &mut Self {
            self.foreground = colour.into();
            self
        }

        pub fn set_background(&mut self, colour: impl Into<ColorAttribute>) -> &mut Self {
            self.background = colour.into();
            self
        }
    }

    #[derive(Clone, Debug, PartialEq, Eq)]
    pub enum AttributeChange {
        Reverse(bool),
    }
}

pub mod color {
    #[derive(Clone, Copy, Debug, PartialEq, Eq)]
    pub enum AnsiColor {
        Black,
        Silver,
    }

    #[derive(Clone, Copy, Debug, Default, PartialEq, Eq)]
    pub enum ColorAttribute {
        #[default]
        Default,
        Ansi(AnsiColor),
    }

    impl From<AnsiColor> for ColorAttribute {
        fn from(colour: AnsiColor) -> ColorAttribute {
            ColorAttribute::Ansi(colour)
        }
    }
}

pub mod input {
    /// A set of modifiers, one bit each.
    #[derive(Clone, Copy, Debug, PartialEq, Eq)]
    pub struct Modifiers(u8);

    impl Modifiers {
        pub const NONE: Modifiers = Modifiers(0);
        pub const SHIFT: Modifiers = Modifiers(1);
        pub const ALT: Modifiers = Modifiers(2);
        pub const CTRL: Modifiers = Modifiers(4);

        pub const fn with(self, other: Modifiers) -> Modifiers {
            Modifiers(self.0 | other.0)
        }
    }

    #[derive(Clone, Copy, Debug, PartialEq, Eq)]
    pub enum KeyCode {
        Char(char),
        Enter,
        Escape,
        Backspace,
        Delete,
        LeftArrow,
        RightArrow,
        UpArrow,
        DownArrow,
        Home,
        End,
        PageUp,
        PageDown,
        Insert,
        Tab,
        Function(u8),
    }

    #[derive(Clone, Debug, PartialEq, Eq)]
    pub struct KeyEvent {
        pub key: KeyCode,
        pub modifiers: Modifiers,
    }
}

pub mod surface {
    #[derive(Clone, Copy, Debug, PartialEq, Eq)]
    pub enum Position {
        Absolute(usize),
    }

    pub mod change {
        use crate::cell::{AttributeChange, CellAttributes};
        use crate::color::ColorAttribute;
        use crate::surface::Position;

        #[derive(Clone, Debug, PartialEq, Eq)]
        pub enum Change {
            CursorPosition { x: Position, y: Position },
            AllAttributes(CellAttributes),
            Attribute(AttributeChange),
            Text(String),
            ClearToEndOfLine(ColorAttribute),
        }
    }
}
