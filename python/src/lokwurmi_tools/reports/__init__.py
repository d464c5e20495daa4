"""Reports in other forms: verdicts, two versions side by side, times in place of ticks; and reports kept in files.
What is computed of reports stands in `lokwurmi.results`."""
