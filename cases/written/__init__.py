"""How a case is written in a line: the words for files, frames, replies and records, and the bytes that they stand for."""
