"""Draws a system file as a graph for Graphviz: resources as boxes, with their tasks, and who activates whom.

FILE is a system file that `lokwurmi analyse` accepts, REPORT what it wrote of it. A task that any one of several
activators starts has a line to it from each, and so has a double edge; where several streams come to a task, it tells
how many. The links of a path have its colour: that of the first path that has them. With a report each task shows its
bound, each path its greatest time and its verdict; a task without a bound, and the tasks of a path that misses its
deadline, are marked. Without --to the graph is written in Graphviz's language dot; with it Graphviz draws the picture,
whose name ends with .svg, .png or .pdf. With --chains tasks are left out that neither activate another nor are
activated by one, and a resource tells how many these are. With --registers a dotted line leads to each task of a chain
of the file CHAINS that isn't started by the one before it but reads what that one wrote last.
"""
from lokwurmi_tools.commands.argument_parsers import add_tick, options_of, reader_of
from lokwurmi_tools.pictures.system_graph import GraphOptions, draw_graph


def main(arguments: list[str] | None = None) -> int:
    reader = reader_of("graph", __doc__)
    reader.add_argument("--chains", action="store_true", help="leave out tasks that stand alone")
    reader.add_argument("--registers", metavar="CHAINS", help="a file of effect chains: who reads what whom wrote")
    reader.add_argument("--to", metavar="PICTURE", help="draw it: a name that ends with .svg, .png or .pdf")
    add_tick(reader)
    reader.add_argument("file", metavar="FILE", help="a system file")
    reader.add_argument("report", metavar="REPORT", nargs="?", help="what lokwurmi analyse wrote of it")
    draw_graph(options_of(GraphOptions, reader.parse_args(arguments)))
    return 0
