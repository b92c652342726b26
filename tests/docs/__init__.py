"""The documents agree with the repository, and the tables in them with the code."""
