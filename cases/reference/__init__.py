"""A second reading of the formats: what `ofxbank` has to answer, written from the formats' rules alone.

Nothing here is taken from `crates/` and nothing there from here, so where the two agree the rules were read twice.
It is written to be read beside the rules and isn't fast. `answer.py` is the whole run, and `happening.py` what each
event does and what a bank opens to from its records; each other module is one page of the formats.
"""
