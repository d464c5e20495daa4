"""The launcher `lokwurmi` beside its fast path in bash: help, builds with progress, --unproved, install, and what is said of refusals."""
