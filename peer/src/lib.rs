//! The rules of docs/RULES.md written a second time, in plain Rust, to be compared with the first.
//!
//! The layers, lowest first: [`refusal`] and [`numbers`], [`entries`], [`cabinet`], [`controller`] with
//! [`forming`] and [`message`], and [`site`]. Above them are [`script`], [`desk`] and [`account`], which run scripts of
//! docs/SCRIPTS.md, and [`random`], [`generate`], [`spoil`] and [`compare`], which make scripts and compare reports.

pub mod account;
pub mod cabinet;
pub mod compare;
pub mod controller;
pub mod desk;
pub mod entries;
pub mod forming;
pub mod generate;
pub mod message;
pub mod numbers;
pub mod random;
pub mod refusal;
pub mod script;
pub mod site;
pub mod spoil;

pub use cabinet::{Cabinet, Strip, Tray, Worn};
pub use controller::{Answer, Answers, Controller, Lengths, Status};
pub use entries::{CardChange, Entry, HoursChange, Kind, Light, Question, lookup};
pub use forming::{Choice, choose};
pub use message::{Body, Message, MessageKind};
pub use numbers::{CELLS, CellRecord, ControllerNumber, Place, PlainView, Slip, Stamp, View, ViewCount, majority};
pub use refusal::{Fault, Refusal};
pub use site::{Lent, Settled, Site};
