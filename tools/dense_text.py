#!/usr/bin/env python3
"""Writes a text with as many tokens as bytes: dense_text.py COUNT [BYTE], to standard output."""

import sys

count = int(sys.argv[1])
byte = sys.argv[2] if len(sys.argv) > 2 else "("
sys.stdout.write(byte * count)
