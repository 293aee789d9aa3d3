"""Modules that the commands of tests/, bench/ and demo/ share."""
import os
import sys

TESTS = os.path.dirname(os.path.dirname(os.path.realpath(__file__)))
ROOT = os.path.dirname(TESTS)
# Modules of other folders are found too, but a module of this folder wins if two have one name.
sys.path += [f"{ROOT}/tools", f"{ROOT}/demo"]
