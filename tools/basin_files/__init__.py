"""What the tools share: the tables of the formats, and the reading of models, inputs, wide tables and runs.

None of it is part of the proved program. Where it and `basin` differ, `basin` is right.
"""
