#!/usr/bin/env python3
"""Opens a prompt on a module, like `mlir-work open`.

usage: tools/session.py MODULE [SCRIPT]"""
import launch

launch.start("open")
