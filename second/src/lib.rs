//! An independent reading of the rules for NVMe boot firmware tables.
//!
//! Tables are read into typed structs that can hold nothing but what a table
//! says. The check is whether that reading succeeds, and the one form, the
//! rewriter and the builder are all written from those structs. They also say
//! which references of a table count, which is what closing its heap takes,
//! and what one table says otherwise than another.

pub mod answer;
pub mod apart;
pub mod builder;
pub mod cases;
pub mod changes;
pub mod compact;
pub mod damage;
pub mod discovery;
pub mod faults;
pub mod files;
pub mod form;
pub mod frame;
pub mod generate;
pub mod goods;
pub mod host;
pub mod identity;
pub mod interface;
pub mod interop;
pub mod json;
pub mod layout;
pub mod looks;
pub mod meaning;
pub mod pairs;
pub mod printed;
pub mod random;
pub mod read;
pub mod record;
pub mod retell;
pub mod samples;
pub mod secondary;
pub mod security;
pub mod show;
pub mod state;
pub mod subsystem;
pub mod text;
pub mod vectors;
pub mod whole;
pub mod wire;

pub use answer::Answer;
pub use changes::changes;
pub use compact::compact;
pub use form::{form, form_length, rewrite};
pub use meaning::{check, check_looks, meaning, Entry, Meaning};
pub use read::{field, object, record, Field, Image};
pub use show::show;
pub use state::State;
pub use text::Text;
pub use whole::{entry, records, EntryBytes, Records};
