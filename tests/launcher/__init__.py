"""Checks of the script `lokwurmi` and of what its launcher says, builds and installs. Tools are checked in
`tests.tools`.
"""
