"""Plain readers of the texts that the program reads, written from docs/language.md, docs/networks.md and
docs/commands.md alone. They share nothing with the program, so that each can be the judge of the other."""
