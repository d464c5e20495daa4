"""Pictures by matplotlib and Graphviz: reports, runs, graphs, curves, and what bounds are made of.
They draw what others computed."""
