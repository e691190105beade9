//! An independent model of document 01 with the requests of document 02 that have landed (Req 01 to Req 04), written from their words and
//! in their order. `device` and `plain` share nothing but `code`, and nothing here uses the library or what the tests are written in.
pub mod code;
pub mod device;
pub mod plain;
