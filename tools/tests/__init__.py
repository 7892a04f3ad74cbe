"""Tests of the scripts' parts, run by bench/unit."""
