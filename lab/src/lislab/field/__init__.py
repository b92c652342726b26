"""Recorded traffic: sniffers' logs, ladders, record files of dialects, tables."""
