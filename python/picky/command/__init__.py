"""The command picky: a module for each subcommand, and what they share."""
