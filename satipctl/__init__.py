"""satipctl: checks, watches and changes a running satip. Each subcommand is a module."""
