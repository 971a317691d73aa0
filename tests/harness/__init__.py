"""What the checks of tests/ share; conftest.py, beside this folder, tells how they are written and run."""
