"""What is needed around a bundle of `fixd`: the command `fixd-tools`, a module for each subcommand, and the library
that they share."""
