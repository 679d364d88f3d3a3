"""The definitions of the tree: what the texts of `specs/` and of the code say, and which of them a clause reaches."""
