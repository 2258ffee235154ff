#!/usr/bin/env python3
"""Runs the command line `mlir-work` in a checkout: `tools/mlir_work.py --help` lists the commands."""
import launch

launch.start()
