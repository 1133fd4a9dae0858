//! The second opinion: documents 01 and 02 in plain Rust, sharing nothing with the proved crates.
//!
//! A folder imports only from folders named above it here; `tests/folders.rs` holds that.

/// What the papers define: books of either form, the percentage of a call, networks, verdicts, what joins two buses, records,
/// calls with their refusals and where a book is wrong, meters, the list.
pub mod definitions {
    pub mod answer;
    pub mod bits;
    pub mod book;
    pub mod branch;
    pub mod comeback;
    pub mod cuts;
    pub mod fields;
    pub mod form;
    pub mod groups;
    pub mod items;
    pub mod limits;
    pub mod list;
    pub mod load;
    pub mod maxflow;
    pub mod meters;
    pub mod moves;
    pub mod network;
    pub mod outage;
    pub mod percentage;
    pub mod place;
    pub mod reach;
    pub mod record;
    pub mod reroutes;
    pub mod screen;
    pub mod switching;
    pub mod tables;
    pub mod wrong;
}

/// Books to try: those with a name, those of source document 001, random ones, and the text form of any.
pub mod books {
    pub mod islands;
    pub mod loads;
    pub mod named;
    pub mod orders;
    pub mod percentages;
    pub mod plain;
    pub mod random;
    pub mod random_books;
    pub mod random_forms;
    pub mod random_islands;
    pub mod random_loads;
    pub mod random_orders;
    pub mod random_percentages;
    pub mod random_ratings;
    pub mod ratings;
    pub mod sources;
    pub mod text;
}

/// What a trial is: its commands, the spaces that they work on, what is fixed of its output, and an output of our own.
pub mod trial {
    pub mod fixed;
    pub mod reference;
    pub mod spaces;
    pub mod stream;
}

/// The making of trial streams: the stored one and the random ones; and all that the gate gives its programs.
pub mod streams {
    pub mod aim;
    pub mod damage;
    pub mod gate;
    pub mod make;
    pub mod make_forms;
    pub mod make_islands;
    pub mod make_loads;
    pub mod make_loads_refused;
    pub mod make_orders;
    pub mod make_percentages;
    pub mod make_places;
    pub mod make_ratings;
    pub mod make_returns;
    pub mod make_tables;
    pub mod make_written;
    pub mod order_lists;
    pub mod stored;
    pub mod stored_forms;
    pub mod stored_islands;
    pub mod stored_loads;
    pub mod stored_orders;
    pub mod stored_percentages;
    pub mod stored_places;
    pub mod stored_ratings;
    pub mod stored_returns;
    pub mod under_way;
}

/// The judge of a trial's output, the faults planted to try it, and many trials in a row.
pub mod judging {
    pub mod accepted;
    pub mod faults;
    pub mod faults_forms;
    pub mod faults_islands;
    pub mod faults_loads;
    pub mod faults_loads_left;
    pub mod faults_orders;
    pub mod faults_percentages;
    pub mod faults_places;
    pub mod faults_ratings;
    pub mod faults_returns;
    pub mod forms;
    pub mod islands;
    pub mod judge;
    pub mod loads;
    pub mod misread;
    pub mod moved;
    pub mod orders;
    pub mod percentages;
    pub mod places;
    pub mod plant;
    pub mod ratings;
    pub mod run;
    pub mod selftest;
    pub mod series;
    pub mod tally;
    pub mod trials;
}
