"""Runs of `ofxclient`, the bank that each calls, and what stands between them."""
