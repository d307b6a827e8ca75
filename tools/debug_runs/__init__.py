"""The parts of ./debug: from a program in C or in the language of clap_debug to what is wrong with it, or a certificate."""
