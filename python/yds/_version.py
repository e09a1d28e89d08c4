"""The version of the package. The library and the program of one version answer alike."""

VERSION = "2.0.0"
DATE = "2026-11-30"
"""The day of the version, as its manual pages have it."""
