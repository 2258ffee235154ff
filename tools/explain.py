#!/usr/bin/env python3
"""Runs a script over a module and explains each refusal, like `mlir-work explain`.

usage: tools/explain.py MODULE [SCRIPT]     (without SCRIPT, the script is in MODULE, after a line `// -----`)"""
import launch

launch.start("explain")
