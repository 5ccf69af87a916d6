//! What the programs that run tests share: the count of them, the project's files, folders for
//! their own, and where the command is.

pub mod command;
pub mod files;
pub mod folder;
pub mod report;
