"""Tests of the recipes: `python3 -m unittest` in the folder recipes. They need the program; ../jfr unpacks it."""
