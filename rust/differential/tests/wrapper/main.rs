//! The script `judge`: what it prints, what it says on standard error and its exit status.
mod calls;
mod checks;
mod inputs;
mod prints;
mod running;
mod signals;
mod stub;
mod troubles;
