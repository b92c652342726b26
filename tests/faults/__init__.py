"""What fails and what is hostile: reads, writes and memory that fail, and generated input."""
