"""A run of `ofxbank serve`, the connections that are made to it, and what it says on them."""
