"""The language server: diagnostics, hints and names of rulesets and models, for editors.

It speaks the Language Server Protocol 3.17 over its input and output, with Python's standard library alone.
"""
