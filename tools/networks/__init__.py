"""The readers of tools/network_from, a file for each format, and what makes a network file of what they read."""
