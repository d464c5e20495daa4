"""Checks of the tools in `lokwurmi_tools`: pictures, pages, searches, verdicts, campaigns. What reads networks and logs
is checked in `tests.networks`.
"""
