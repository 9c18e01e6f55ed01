"""Calls that a log of CloudTrail has, asked for again."""
