"""The texts that the proved program is run on, by subject, with the logs that were worked out by hand for most of them.

Each module has its texts in `cases`, a list of texts.case.Case. tools/log_texts.py puts them together.
"""
