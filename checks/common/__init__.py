"""Modules for the checks in the folder above that are no checks themselves: texts, images, plain counts, and calls of the kit."""
