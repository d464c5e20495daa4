"""Tells how long a frame takes on a bus or a link, as best and worst of a task on a `can` resource.

    ./lokwurmi lengths can 8 --bitrate 500000
    ./lokwurmi lengths fd 64 --bitrate 500000 --data-bitrate 2000000
    ./lokwurmi lengths ethernet 1500 --bitrate 100000000 --tagged --tick 10ns
    ./lokwurmi lengths error 8 --bitrate 500000

BYTES are those of the payload. A time is that from the first bit of a frame to when the next one may begin: with the
three bits between frames on a CAN bus, with preamble and gap on Ethernet. The least has no stuff bit, the greatest as
many as there can be; the least is rounded down to ticks, the greatest up. `error` is an error on a CAN bus while the
longest frame has BYTES bytes: 31 bits, and the frame that is sent again. docs/NETWORKS.md tells where the numbers come
from.
"""
from lokwurmi import frames
from lokwurmi_tools.commands.argument_parsers import options_of, reader_of, word_of
from lokwurmi_tools.networks.frame_lengths import LengthOptions, tell_length
from lokwurmi_tools.shared.times import rate_of, time_of

# the longest payload of each kind, in bytes
MOST = {
    "can": frames.MOST_CLASSICAL,
    "fd": frames.SIZES[-1],
    "ethernet": frames.MOST_ETHERNET,
    "error": frames.SIZES[-1],
}


def main(arguments: list[str] | None = None) -> int:
    reader, rate = reader_of("lengths", __doc__), word_of(rate_of)
    reader.add_argument("kind", choices=tuple(MOST), help="what kind of frame")
    reader.add_argument("bytes", metavar="BYTES", type=int, help="bytes of its payload; those of CAN FD are filled up")
    reader.add_argument("--bitrate", metavar="BITS", type=rate, required=True, help="bits per second")
    says = "those of the data phase; --bitrate if absent"
    reader.add_argument("--data-bitrate", metavar="BITS", type=rate, help=says)
    reader.add_argument("--extended", action="store_true", help="an identifier of 29 bits")
    reader.add_argument("--tagged", action="store_true", help="an Ethernet frame with a tag for its priority")
    says = "a tick; 1us if absent"
    reader.add_argument("--tick", metavar="TIME", type=word_of(time_of), default=time_of("1us"), help=says)
    options = options_of(LengthOptions, reader.parse_args(arguments))
    if not 0 <= options.bytes <= MOST[options.kind]:
        reader.error(f"{options.bytes} bytes: a frame of this kind has 0 to {MOST[options.kind]}")
    for word, is_given, kinds in (
        ("--data-bitrate", options.data_bitrate is not None, ("fd", "error")),
        ("--extended", options.extended, ("can", "fd", "error")),
        ("--tagged", options.tagged, ("ethernet",)),
    ):
        if is_given and options.kind not in kinds:
            reader.error(f"{word} concerns nothing of {options.kind}: it is of {' and '.join(kinds)}; leave it out")
    if options.data_bitrate and options.data_bitrate < options.bitrate:
        reader.error("--data-bitrate is below --bitrate: the data phase isn't the slower one")
    tell_length(options)
    return 0
