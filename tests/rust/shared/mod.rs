// What the tests share: tables and their text, the bench as it is linked, drawn modules, and the lists of cases.
#![allow(dead_code)]
pub mod bench;
pub mod cases;
pub mod damage;
pub mod entry;
pub mod large;
pub mod rules;
mod served;
pub mod sheet;
pub mod tables;
pub mod visible;
