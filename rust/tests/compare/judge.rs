//! One call made on the archive and on the reference, and everything that both left compared.

use reference::Rule;

use crate::as_c;
use crate::judged::Judged;
use crate::lent::{seen_as, seen_as_mut, Lent};

/// A call with all it is given. Buffers that it writes have what stands in them before. Values are
/// bytes in two's complement.
#[derive(Clone, Debug)]
#[rustfmt::skip]
pub enum Call {
    Build { length: u64, mode: u64, message: Vec<u8>, frame: Vec<u8> },
    Recover { length: u64, marks: Vec<u8>, values: Vec<u8>, message: Vec<u8> },
    WriteCapture { length: u64, marks: Vec<u8>, values: Vec<u8>, capture: Vec<u8> },
    ReadCapture { capture: Vec<u8>, marks: Vec<u8>, values: Vec<u8> },
}

/// Makes the call on both, in buffers with these guards on their sides. A refused call is made once
/// more as C would, to see the other fields of its answer; the buffers are compared after each, so
/// that no fault can undo itself.
#[rustfmt::skip]
pub fn judge(rule: Rule, call: &Call, guards: [u8; 2]) -> Judged {
    match call {
        Call::Build { length, mode, message, frame } =>
            build(guards, *length, *mode, message, frame),
        Call::Recover { length, marks, values, message } =>
            recover(rule, guards, *length, marks, values, message),
        Call::WriteCapture { length, marks, values, capture } =>
            write_capture(guards, *length, marks, values, capture),
        Call::ReadCapture { capture, marks, values } =>
            read_capture(guards, capture, marks, values),
    }
}

fn build(guards: [u8; 2], length: u64, mode: u64, message: &[u8], frame: &[u8]) -> Judged {
    let expected = reference::build(length, mode, message, frame.len());
    let (from, mut to) = (Lent::new(message, guards), Lent::new(frame, guards));
    let got = gloamstrother::build(length, mode, from.content(), to.content_mut());
    let size = |frame: Vec<u8>| vec![frame.len() as u32];
    let mut judged = Judged::new(expected.clone().map(size), got.map(|size| vec![size as u32]));
    let written = expected.unwrap_or_default();
    judged.buffers(&[("message", &from, message, &[]), ("frame", &to, frame, &written)]);
    if got.is_err() {
        judged.fields_for_c(&as_c::build(length, mode, &from, &mut to));
        judged.buffers(&[("message", &from, message, &[]), ("frame", &to, frame, &[])]);
    }
    judged
}

fn recover(
    rule: Rule,
    guards: [u8; 2],
    length: u64,
    marks: &[u8],
    values: &[u8],
    message: &[u8],
) -> Judged {
    let expected = reference::recover(rule, length, marks, values, message.len());
    let (from_marks, from_values) = (Lent::new(marks, guards), Lent::new(values, guards));
    let mut to = Lent::new(message, guards);
    let (lent_marks, lent_values) = (from_marks.content(), seen_as(from_values.content()));
    let got = gloamstrother::recover(length, lent_marks, lent_values, to.content_mut());
    let (numbers, written) = match expected {
        Ok(done) => (Ok(vec![done.length, done.mode, done.cost]), done.message),
        Err(refusal) => (Err(refusal), vec![]),
    };
    let mut judged = Judged::new(numbers, got.map(|done| vec![done.length, done.mode, done.cost]));
    let inputs = [("marks", &from_marks, marks, &[][..]), ("values", &from_values, values, &[])];
    judged.buffers(&inputs);
    judged.buffers(&[("message", &to, message, &written)]);
    if got.is_err() {
        judged.fields_for_c(&as_c::recover(length, &from_marks, &from_values, &mut to));
        judged.buffers(&inputs);
        judged.buffers(&[("message", &to, message, &[])]);
    }
    judged
}

fn write_capture(
    guards: [u8; 2],
    length: u64,
    marks: &[u8],
    values: &[u8],
    capture: &[u8],
) -> Judged {
    let expected = reference::write_capture(length, marks, values, capture.len());
    let (from_marks, from_values) = (Lent::new(marks, guards), Lent::new(values, guards));
    let mut to = Lent::new(capture, guards);
    let (lent_marks, lent_values) = (from_marks.content(), seen_as(from_values.content()));
    let got = gloamstrother::write_capture(length, lent_marks, lent_values, to.content_mut());
    let size = |capture: Vec<u8>| vec![capture.len() as u32];
    let mut judged = Judged::new(expected.clone().map(size), got.map(|size| vec![size as u32]));
    let inputs = [("marks", &from_marks, marks, &[][..]), ("values", &from_values, values, &[])];
    judged.buffers(&inputs);
    judged.buffers(&[("capture", &to, capture, &expected.unwrap_or_default())]);
    if got.is_err() {
        judged.fields_for_c(&as_c::write_capture(length, &from_marks, &from_values, &mut to));
        judged.buffers(&inputs);
        judged.buffers(&[("capture", &to, capture, &[])]);
    }
    judged
}

fn read_capture(guards: [u8; 2], capture: &[u8], marks: &[u8], values: &[u8]) -> Judged {
    let expected = reference::read_capture(capture, marks.len(), values.len());
    let from = Lent::new(capture, guards);
    let (mut to_marks, mut to_values) = (Lent::new(marks, guards), Lent::new(values, guards));
    let (lent_marks, lent_values) = (to_marks.content_mut(), seen_as_mut(to_values.content_mut()));
    let got = gloamstrother::read_capture(from.content(), lent_marks, lent_values);
    let (numbers, read_marks, read_values) = match expected {
        Ok(read) => (Ok(vec![read.length]), read.marks, read.values),
        Err(refusal) => (Err(refusal), vec![], vec![]),
    };
    let mut judged = Judged::new(numbers, got.map(|length| vec![length]));
    judged.buffers(&[("capture", &from, capture, &[])]);
    judged.buffers(&[("marks", &to_marks, marks, &read_marks)]);
    judged.buffers(&[("values", &to_values, values, &read_values)]);
    if got.is_err() {
        judged.fields_for_c(&as_c::read_capture(&from, &mut to_marks, &mut to_values));
        judged.buffers(&[("capture", &from, capture, &[])]);
        judged.buffers(&[("marks", &to_marks, marks, &[]), ("values", &to_values, values, &[])]);
    }
    judged
}
