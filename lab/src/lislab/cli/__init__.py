"""The command `lislab`: the options of each subcommand, and what it runs."""
