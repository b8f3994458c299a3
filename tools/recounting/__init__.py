"""An independent model of the device in Python, for comparing. docs/MODEL.md has its rules."""
