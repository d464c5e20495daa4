"""Databases of CAN networks and how a system is made of their frames.
Logs of traffic are in `logs`."""
