//! Links libbwtree, an archive with the functions of bwtree.h, for the crate `bwtree`, which declares them and is what programs use.
//!
//! The archive is for x86-64 Linux, and needs a processor of the level x86-64-v2.
#![no_std]

#[cfg(not(all(target_arch = "x86_64", target_os = "linux")))]
compile_error!("libbwtree runs on x86-64 Linux alone");
