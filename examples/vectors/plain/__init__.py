"""Columns, messages, floats and calls, worked out from plain rows by the pages: the parts of model.py."""
