"""The command `tools/press`: runs as headers, tables, pictures and volumes. Each subcommand is a module of its own."""
