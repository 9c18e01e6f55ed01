"""The subcommands of iamsim-aws."""
