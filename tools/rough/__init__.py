"""What the tools that use the program roughly share: cheap runs, changed texts, drawn networks."""
