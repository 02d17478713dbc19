//! The independent second program: a checker for the alternation-free modal mu-calculus
//! over a table of labelled moves, written from the documents alone.
//!
//! Nothing here is fast on purpose. Every call first reads and judges everything into owned
//! values and only stores into the lent [`Session`] at its very end, so a refusal changes
//! nothing.
//!
//! ```
//! use reference::{ask_mark, ask_value, batch, load, write_vec, Session, State, Variable};
//!
//! let model = [1, 2, 0, 1, 0, 1, 1, 3, 1, 1, 4, 6, 0, 0, 6];
//! let mut session = Session::roomy();
//! let loaded = load(&mut session, &model).unwrap();
//! assert_eq!((loaded.true_pairs, loaded.pairs, loaded.stamp), (0, 2, 0));
//!
//! let updated = batch(&mut session, &[7, 0, 0, 0, 0, 8, 0, 0, 0, 0, 0, 6]).unwrap();
//! assert_eq!((updated.net, updated.shift_visits, updated.settle_visits), (1, 1, 0));
//! assert_eq!(ask_value(&session, State(0), Variable(0)), Ok(true));
//! assert_eq!(ask_mark(&session, State(0), Variable(0)), Ok(1));
//!
//! let refusal = batch(&mut session, &[7, 1, 0, 0, 0, 8, 0, 0, 0, 0, 0, 6]).unwrap_err();
//! assert_eq!((refusal.number, refusal.place), (7, 5));
//! assert_eq!(write_vec(&session).unwrap().len(), model.len() + 6);
//! ```

pub mod batch;
pub mod census;
pub mod components;
pub mod generate;
pub mod limits;
pub mod model;
pub mod program;
pub mod random;
pub mod records;
pub mod refusal;
pub mod rewrite;
pub mod session;
pub mod solve;
pub mod table;
pub mod update;
pub mod write;

pub use batch::{batch, Updated};
pub use model::{load, Loaded};
pub use records::{Block, Equation, Record, Sizes, Style};
pub use refusal::Refusal;
pub use rewrite::{in_signs, stream_in_signs};
pub use session::{ask_mark, ask_value, Rooms, Session};
pub use table::{stamp, Action, Move, State, Variable};
pub use write::{write, write_vec};
