"""Traces as text, and what the panel program prints in words: the work of `tools/trace`.

The layout of traces, frames and records is written here from 01 and not taken from the model under tests/, so that the tool needs no test
and the tests hold the two against each other.
"""
