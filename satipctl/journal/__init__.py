"""The journals that `satip journal` writes: their lines, a run of them, and pages of it."""
