"""Logs of buses, written by python-can, for the checks of what is read from them."""
import os

import can

from tests.support.databases import called, dumped, matrix_of


def log_of(room, name, frames):
    """A log of some times, each of an identifier, whether it has 29 bits, bytes, and a channel."""
    file = os.path.join(room, name)
    with can.Logger(file) as it:
        for at, identifier, extended, size, channel in frames:
            it.on_message_received(
                can.Message(
                    timestamp=1_700_000_000 + at / 1e6,
                    arbitration_id=identifier,
                    is_extended_id=extended,
                    dlc=size,
                    data=bytes(size),
                    channel=channel,
                )
            )
    return file


def two_channels(room):
    """A database, its system, frames of two channels, and their log."""
    database = dumped(
        room, "names.dbc", matrix_of([("Speed", 0x10, False, 2, 10, {}), ("Lamps", 0x20, False, 1, 20, {})])
    )
    system = os.path.join(room, "names.toml")
    called("import network", f"b={database}", "--bitrate", 500000, "--to", system)
    base = [(at, 0x10, False, 2, "can0") for at in range(0, 100_000, 10_000)] + [
        (at, 0x20, False, 1, "can1") for at in range(300, 100_000, 20_000)
    ]
    base.sort()
    log = log_of(room, "two.log", base)
    return database, system, base, log
