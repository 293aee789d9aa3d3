"""Modules that the commands of this folder share."""
import os
import sys

DEMO = os.path.dirname(os.path.dirname(os.path.realpath(__file__)))
ROOT = os.path.dirname(DEMO)
# Modules of other folders are found too, but a module of this folder wins if two have one name.
sys.path += [f"{ROOT}/tools", f"{ROOT}/tests"]
