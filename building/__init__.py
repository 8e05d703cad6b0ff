"""What `./build` makes of the crates: the program, the library for C, and the files around them."""
