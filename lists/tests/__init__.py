"""Tests of the tool for event lists: python3 -m unittest discover -s lists -t ."""
