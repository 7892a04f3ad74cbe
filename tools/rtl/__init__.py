"""A session as SystemVerilog: session.py reads it, words.py has names and expressions, module.py and design.py write the RTL."""
