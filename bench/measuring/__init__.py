"""Modules that the commands of this folder share."""
import os
import sys

ROOT = os.path.dirname(os.path.dirname(os.path.dirname(os.path.realpath(__file__))))
# The clients, back ends and free ports of the tests, which a gateway needs.
sys.path.append(f"{ROOT}/tests")
