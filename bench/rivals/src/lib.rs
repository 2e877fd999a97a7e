//! What a user of Rust would pick or write instead, behind the C boundary that speed is measured over.
mod caches;
mod reports;
