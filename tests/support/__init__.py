"""What checks and measurements share: calls of programs and tools, random systems, databases, damage, a browser.
Nothing here says what an answer has to be: that is in `tests.rules`, or in a check.
"""
