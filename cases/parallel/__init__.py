"""Customers at once at a served bank, and whether what they got is what a bank of one thread answers in one order."""
