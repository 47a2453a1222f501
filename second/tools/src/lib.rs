//! What the programs around heap records share: paper texts, the form of a
//! single call, and generators of records and states.

pub mod call_form;
pub mod drop_records;
pub mod drop_states;
pub mod dropping;
pub mod long_blocks;
pub mod long_records;
pub mod long_states;
pub mod make_record;
pub mod make_state;
pub mod naming;
pub mod paper;
pub mod rank_faults;
pub mod row_form;
pub mod run;
pub mod run_faults;
pub mod table;
pub mod total_faults;
pub mod xorshift;
