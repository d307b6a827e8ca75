"""A translator from a part of C11 to the language of `clap_debug`. NOT PROVED. docs/FROM-C.md says what it takes."""
