"""Accounts made by hand, and the rules of what is right in them. They are for tools/account_cases.py."""
