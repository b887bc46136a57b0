"""Reads the tables of cases, runs the program on each line, and compares."""
