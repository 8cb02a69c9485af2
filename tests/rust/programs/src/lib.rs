//! Tests of the hash program, and of what the demo must print. The paths of the
//! two programs come from the environment variables HASH_PROGRAM and
//! DEMO_PROGRAM; a relative path is taken from this crate's directory. The tests
//! are in `tests/`.
