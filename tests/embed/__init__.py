"""What stands on the library for C: its programs in C and C++, the module for Python and the crate for Rust."""
