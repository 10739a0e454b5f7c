"""The version of the package: that of the file VERSION of the repository."""

__version__ = "1.1.0"
