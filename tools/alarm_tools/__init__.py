"""What the tools around the alarm server share: octets, names, a journal's records, a site's text. docs/TOOLS.md has the tools.

It is Python's standard library alone, of 3.11 or later, and importing a module does nothing else.
"""
