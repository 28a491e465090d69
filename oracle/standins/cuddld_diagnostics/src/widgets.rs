pub trait Widget {}

pub struct Text(pub String);

impl Text {
    pub fn new(text: impl Into<String>) -> Self {
        Text(text.into())
    }
}

pub struct QuotedText(pub String);

impl QuotedText {
    pub fn new(text: impl Into<String>) -> Self {
        QuotedText(text.into())
    }
}

impl Widget for Text {}
impl Widget for QuotedText {}
