"""What the tools that run the program share: words, runs, the text that a command prints, networks."""
