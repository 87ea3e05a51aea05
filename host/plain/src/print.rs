//! Printing (02, T-04): a let-free form as a text, or why there is none.
//!
//! A printed text has no blanks but one on either side of `->`. Brackets stand around a
//! function that is a receiver, where the grammar wants an atom, and nowhere else. The
//! text is read again by itself: it is given only where it means the very form that it
//! was written for. Levels are part of a form (02, T-05), so a function that was written
//! inside another lambda is not given by itself, nor one under a lambda that it was not
//! written in.

use crate::bind::bind;
use crate::form::{Form, Forms};
use crate::limits::TEXT_BYTES;
use crate::member::Member;
use crate::refusal::{OTHER_FORM, TEXT_TOO_LONG, TEXT_UNFIT};
use crate::syntax::{DATA, parse};

/// Why a form is not printed.
#[derive(Clone, Copy, PartialEq, Eq, Debug)]
pub enum Fault {
    /// Its text exceeds the lent bytes.
    Room,
    /// The reader would decline its text with this number, 1 or 5 to 12.
    Declined(u8),
    /// Its text, read by itself, has a different let-free form.
    OtherForm,
}

impl Fault {
    /// The number of the refusal.
    pub fn number(self) -> u8 {
        match self {
            Fault::Room | Fault::Declined(_) => TEXT_UNFIT,
            Fault::OtherForm => OTHER_FORM,
        }
    }
}

/// Prints the form of this number into `room` bytes.
pub fn print(forms: &Forms, number: usize, room: usize) -> Result<String, Fault> {
    let fault = if room < TEXT_BYTES { Fault::Room } else { Fault::Declined(TEXT_TOO_LONG) };
    let text = written(forms, number, room.min(TEXT_BYTES)).ok_or(fault)?;
    let read = parse(text.as_bytes()).map_err(|refusal| Fault::Declined(refusal.number))?;
    // Equal let-free forms have one number, and unequal forms have two.
    let mut forms = forms.clone();
    if bind(&read, &mut forms).whole != number {
        return Err(Fault::OtherForm);
    }
    Ok(text)
}

/// The text of a form, if it has at most `room` bytes. A form that occurs in many places
/// of its text is written in each, so the text may be far longer than there are forms:
/// the first byte too many ends the writing.
pub fn written(forms: &Forms, number: usize, room: usize) -> Option<String> {
    let mut writer = Writer { forms, room, text: String::new() };
    writer.form(number)?;
    Some(writer.text)
}

struct Writer<'a> {
    forms: &'a Forms,
    room: usize,
    text: String,
}

impl Writer<'_> {
    /// Adds to the text, if there is room.
    fn put(&mut self, piece: &str) -> Option<()> {
        self.text += piece;
        (self.text.len() <= self.room).then_some(())
    }

    fn form(&mut self, number: usize) -> Option<()> {
        let forms = self.forms;
        match &forms.list[number] {
            Form::Number(value) => self.put(&value.to_string()),
            Form::Variable(variable) => self.put(&variable.name.word()),
            Form::Unbound(name) => self.put(&name.word()),
            Form::Data => self.put(DATA),
            Form::Function(variable, body) => {
                self.put(&format!("\\{} -> ", variable.name.word()))?;
                self.form(*body)
            }
            Form::Member(member, operands) => self.call(*member, operands),
        }
    }

    fn call(&mut self, member: Member, operands: &[usize]) -> Option<()> {
        let (receiver, arguments) = operands.split_first().expect("a member has a receiver");
        self.receiver(*receiver)?;
        self.put(&format!(".{}(", member.name()))?;
        for (at, argument) in arguments.iter().enumerate() {
            self.put(if at == 0 { "" } else { "," })?;
            self.form(*argument)?;
        }
        self.put(")")
    }

    fn receiver(&mut self, number: usize) -> Option<()> {
        if !matches!(self.forms.list[number], Form::Function(..)) {
            return self.form(number);
        }
        self.put("(")?;
        self.form(number)?;
        self.put(")")
    }
}
