"""Builds the wheel in a folder of its own: setuptools would put what an earlier build left there into the wheel too."""
import tempfile

from setuptools import setup

with tempfile.TemporaryDirectory() as base:
    setup(options={"build": {"build_base": base}, "egg_info": {"egg_base": base}})
