"""Refusals and notices in words: a file that the program refused is read again here, to tell where and why. No part of
what is proved: what the program writes decides, and where this reads otherwise it tells no more than the program's line
does."""
