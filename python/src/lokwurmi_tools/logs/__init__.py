"""Recorded logs of CAN buses, the event models that they show, and how they stand to a system.
Databases are in `networks`."""
