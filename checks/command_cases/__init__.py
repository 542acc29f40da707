"""The cases of checks/commands.py, a module for each command or kind of case. Each function takes the subject that it tries."""
