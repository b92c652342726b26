"""Stored data and its meaning: stores, orders, the settings of lines, the codes and results of messages."""
