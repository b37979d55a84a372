//! The oracle: the upstream antenna models built over document 01's
//! elementary functions. See `oracle/README.md`.

pub mod deck;
pub mod elementary;
pub mod fields;
pub mod gain_calls;
pub mod gainlist;
pub mod gainlist_decks;
pub mod lists_antenna;
pub mod lists_curtain;
pub mod lists_deck;
pub mod lists_dipoles;
pub mod lists_gains;
pub mod lists_integrals;
pub mod lists_output;
pub mod lists_parameters;
pub mod lists_rhombics;
pub mod lists_slopes;
pub mod lists_verticals;
pub mod lists_wrong;
pub mod splitmix;
pub mod standins;

// Written by `make-oracle` from the upstream files, with the upstream names.
// The models need only a part of what these files hold.
#[allow(dead_code)]
pub mod antenna;
#[allow(dead_code)]
pub mod con;
pub mod ioncap;
#[allow(dead_code)]
pub mod model;
pub mod output;
