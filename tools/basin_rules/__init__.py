"""Rulesets and code files as the tools read them: where something is wrong, what it may mean, what it costs.

What is read here follows docs/LANGUAGE.md, and docs/CODE.md on code. `basin` is the judge.
"""
