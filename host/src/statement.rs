//! Document 01, "Table and trace bytes", and request 2026-01: a trace's statements, each without its length.

use crate::encoding::Form;

pub fn assign(place: u16, symbol: u16, expression: &[u8]) -> Vec<u8> {
    [&[1], &place.to_be_bytes()[..], &symbol.to_be_bytes(), expression].concat()
}

pub fn assume(place: u16, condition: &[u8]) -> Vec<u8> {
    [&[2], &place.to_be_bytes()[..], condition].concat()
}

pub fn assert(place: u16, condition: &[u8]) -> Vec<u8> {
    [&[3], &place.to_be_bytes()[..], condition].concat()
}

/// Of version 130 alone.
pub fn bound(place: u16, condition: &[u8]) -> Vec<u8> {
    [&[4], &place.to_be_bytes()[..], condition].concat()
}

/// The expression that is a symbol alone.
pub fn read(symbol: u16) -> Vec<u8> {
    Form::Trace.symbol(symbol)
}
