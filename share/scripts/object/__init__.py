"""Sections of whole programs, on which words of `linetab` are run."""
