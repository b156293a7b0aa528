//! Writing traces, lawful or not.

use crate::trace::{
    Edition, APPEND, CLOSE, EDITION, EDITION_2, END, LIST_READ, NOTE, OPEN, READ, WRITE,
};

/// Writes record after record; serials follow by themselves.
pub struct Writer {
    pub bytes: Vec<u8>,
    edition: Edition,
    serial: u32,
    opened: u16,
}

impl Writer {
    /// A trace of edition 1, as long as no edition is begun.
    pub fn new(first_serial: u32) -> Writer {
        Writer {
            bytes: Vec::new(),
            edition: Edition::One,
            serial: first_serial,
            opened: 0,
        }
    }

    /// A trace of edition 2, begun with the record that says so.
    pub fn edition_2(first_serial: u32) -> Writer {
        let mut writer = Writer::new(first_serial);
        writer.edition(EDITION_2);
        writer
    }

    /// A trace of the edition, begun as it has to.
    pub fn of_edition(edition: Edition, first_serial: u32) -> Writer {
        match edition {
            Edition::One => Writer::new(first_serial),
            Edition::Two => Writer::edition_2(first_serial),
        }
    }

    /// Any record, with the length that its payload asks for.
    pub fn record(&mut self, kind: u16, payload: &[u8]) {
        let length = u16::try_from(6 + payload.len()).expect("a payload that a length can count");
        self.bytes.extend(length.to_le_bytes());
        self.bytes.extend(kind.to_le_bytes());
        self.bytes.extend(self.serial.to_le_bytes());
        self.bytes.extend(payload);
        self.serial = self.serial.wrapping_add(1);
    }

    pub fn open(&mut self, session: u16) {
        self.opened = self.opened.wrapping_add(1);
        self.record(OPEN, &session.to_le_bytes());
    }

    /// The record that edition 2 begins with, with a number of choice. Behind it
    /// all is laid out as in edition 2.
    pub fn edition(&mut self, number: u16) {
        self.edition = Edition::Two;
        self.record(EDITION, &number.to_le_bytes());
    }

    /// Puts another session into the record that begins at this byte and has
    /// its session first: an open, or any record of a transaction in edition 2.
    pub fn set_session(&mut self, record: usize, session: u16) {
        let payload = record + 8;
        self.bytes[payload..payload + 2].copy_from_slice(&session.to_le_bytes());
    }

    /// A read, as edition 1 has it.
    pub fn read(&mut self, key: u32, value: u64) {
        self.record(READ, &key_and_value(key, value));
    }

    /// A write, as edition 1 has it.
    pub fn write(&mut self, key: u32, value: u64) {
        self.record(WRITE, &key_and_value(key, value));
    }

    /// A close, as edition 1 has it.
    pub fn close(&mut self, status: u8) {
        self.record(CLOSE, &[status]);
    }

    /// A read as the trace's edition has it: edition 1 without the session.
    pub fn read_in(&mut self, session: u16, key: u32, value: u64) {
        self.record_in(session, READ, &key_and_value(key, value));
    }

    /// A write as the trace's edition has it.
    pub fn write_in(&mut self, session: u16, key: u32, value: u64) {
        self.record_in(session, WRITE, &key_and_value(key, value));
    }

    /// An append, which only edition 2 has.
    pub fn append_in(&mut self, session: u16, key: u32, value: u64) {
        self.record_in(session, APPEND, &key_and_value(key, value));
    }

    /// A list read, which only edition 2 has, with the number that its values have.
    pub fn read_list_in(&mut self, session: u16, key: u32, values: &[u64]) {
        let number = u16::try_from(values.len()).expect("a list that a number can count");
        self.numbered_list_in(session, key, number, values);
    }

    /// A list read with a number of choice.
    pub fn numbered_list_in(&mut self, session: u16, key: u32, number: u16, values: &[u64]) {
        let mut fields = key.to_le_bytes().to_vec();
        fields.extend(number.to_le_bytes());
        fields.extend(values.iter().flat_map(|value| value.to_le_bytes()));
        self.record_in(session, LIST_READ, &fields);
    }

    /// A close as the trace's edition has it.
    pub fn close_in(&mut self, session: u16, status: u8) {
        self.record_in(session, CLOSE, &[status]);
    }

    /// Any record of a transaction as the trace's edition has it, without its
    /// session in `fields`.
    pub fn record_in(&mut self, session: u16, kind: u16, fields: &[u8]) {
        match self.edition {
            Edition::One => self.record(kind, fields),
            Edition::Two => {
                let payload = [&session.to_le_bytes(), fields].concat();
                self.record(kind, &payload);
            }
        }
    }

    pub fn note(&mut self, text: &[u8]) {
        self.record(NOTE, text);
    }

    /// The end record with the right number; hands back the trace.
    pub fn end(self) -> Vec<u8> {
        let opened = self.opened;
        self.end_with(opened)
    }

    /// The end record with a number of choice; hands back the trace.
    pub fn end_with(mut self, number: u16) -> Vec<u8> {
        self.record(END, &number.to_le_bytes());
        self.bytes
    }
}

fn key_and_value(key: u32, value: u64) -> [u8; 12] {
    let mut fields = [0; 12];
    fields[..4].copy_from_slice(&key.to_le_bytes());
    fields[4..].copy_from_slice(&value.to_le_bytes());
    fields
}
