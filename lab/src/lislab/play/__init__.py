"""Test scripts that play an analyzer or a host, and compare what the other end does."""
