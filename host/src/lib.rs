//! What stands outside the proofs: a plain second implementation of document 01 with its enumeration, stored cases and model
//! families, a fast one to measure against, the proved libraries, the text form of models, JSON, and the command line.

pub mod answer;
pub mod beam;
pub mod bench;
pub mod build;
pub mod cases;
pub mod command;
pub mod declarations;
pub mod edit;
pub mod enumerate;
pub mod families;
pub mod fast;
pub mod generate;
pub mod json;
pub mod line;
pub mod models;
pub mod month;
pub mod numbers;
pub mod proved;
pub mod quotation;
pub mod reference;
pub mod text;
pub mod variants;
