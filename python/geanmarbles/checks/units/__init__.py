"""Tests of single functions: what a whole run reaches seldom, or only by chance."""
