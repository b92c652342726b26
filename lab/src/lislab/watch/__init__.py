"""The state of a host and its deliveries, for readers and programs."""
