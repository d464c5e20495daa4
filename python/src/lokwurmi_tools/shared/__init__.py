"""What commands of several rooms need: calls of the program, files as its user names them, progress, tables, and how a
command ends. What is of use without a command stands in the package `lokwurmi`."""
